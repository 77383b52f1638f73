PROGRAM clock;
{ minutes after midnight, as hours and minutes }
VAR minutes, h, m: INTEGER;
ENTRY (0 <= minutes) AND (minutes < 1440);
EXIT (minutes = 60 * h + m) AND (0 <= m) AND (m < 60) AND (0 <= h) AND (h < 24);
BEGIN
  h := minutes DIV 60;
  m := minutes MOD 60
END.

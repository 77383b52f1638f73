PROGRAM wrongweeks;
{ the loop stops too early: 7 days stay where another week should be }
VAR days, w, d: INTEGER;
ENTRY days >= 0;
EXIT (days = 7 * w + d) AND (0 <= d) AND (d < 7);
BEGIN
  w := 0;
  d := days;
  INVARIANT (days = 7 * w + d) AND (0 <= d)
  WHILE d > 7 DO
  BEGIN
    d := d - 7;
    w := w + 1
  END
END.

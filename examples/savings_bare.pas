PROGRAM savings;
{ twenty cents in a box, and one more each day }
VAR days, d, cents: INTEGER;
ENTRY days >= 0;
EXIT cents = days + 20;
BEGIN
  d := 0;
  cents := 20;
  WHILE d < days DO
  BEGIN
    cents := cents + 1;
    d := d + 1
  END
END.

PROGRAM swap;
{ Exchanges x and y by way of t. ENTRY calls their values at the start a and b. }
VAR x, y, t, a, b: INTEGER;
ENTRY (x = a) AND (y = b);
EXIT (x = b) AND (y = a);
BEGIN
  t := x;
  x := y;
  y := t
END.

PROGRAM rounding;
{ quotients of negative numbers are cut off towards 0, and a remainder has the sign of the dividend }
VAR q, r, x, y: INTEGER;
ENTRY y < 0;
EXIT (y = 7 * q + r) AND (r <= 0) AND (-7 < r) AND (x = -3);
BEGIN
  x := (-7) DIV 2;
  q := y DIV 7;
  r := y MOD 7
END.

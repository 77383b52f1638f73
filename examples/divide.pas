PROGRAM divide;
{ quotient and remainder by repeated subtraction }
VAR a, b, q, r: INTEGER;
ENTRY (a >= 0) AND (b > 0);
EXIT (a = b * q + r) AND (0 <= r) AND (r < b);
BEGIN
  q := 0;
  r := a;
  INVARIANT (a = b * q + r) AND (0 <= r)
  WHILE r >= b DO
  BEGIN
    r := r - b;
    q := q + 1
  END
END.

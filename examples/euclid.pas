PROGRAM euclid;
{ the greatest common divisor by subtraction; that it stays the same when one number is taken from the other, the rules say }
VAR a, b, x, y: INTEGER;
DECLARE Gcd(INTEGER, INTEGER): INTEGER;
ENTRY (a > 0) AND (b > 0);
EXIT x = Gcd(a, b);
BEGIN
  x := a; y := b;
  INVARIANT (Gcd(x, y) = Gcd(a, b)) AND (x > 0) AND (y > 0)
  WHILE x <> y DO
    IF x > y THEN x := x - y ELSE y := y - x
END.

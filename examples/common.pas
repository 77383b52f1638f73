PROGRAM common;
{ a greatest common divisor by recursion; what is said of it is that it is positive and not above its arguments }
VAR x, y, g: INTEGER;
FUNCTION gcd(a, b: INTEGER): INTEGER;
ENTRY (a > 0) AND (b > 0);
EXIT (0 < gcd) AND (gcd <= a) AND (gcd <= b);
BEGIN
  IF a = b THEN gcd := a
  ELSE IF a < b THEN gcd := gcd(a, b - a)
  ELSE gcd := gcd(a - b, b)
END;
ENTRY (x > 0) AND (y > x);
EXIT g <= x;
BEGIN g := gcd(y, x) END.

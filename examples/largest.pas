PROGRAM largest;
{ the largest of three numbers, by two choices }
VAR a, b, c, m: INTEGER;
EXIT (a <= m) AND (b <= m) AND (c <= m)
  AND ((m = a) OR (m = b) OR (m = c));
BEGIN
  m := a;
  IF m < b THEN m := b;
  IF m < c THEN m := c
END.

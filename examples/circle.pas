PROGRAM circle;
{ each of three is older than the next one }
VAR a, b, c, oldest: INTEGER;
ENTRY (a > b) AND (b > c) AND (c > a);
EXIT (oldest >= a) AND (oldest >= b) AND (oldest >= c);
BEGIN
  ASSERT FALSE;
  oldest := c
END.

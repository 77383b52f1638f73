PROGRAM steps;
{ the sum of n threes, added one by one }
VAR i, n, s: INTEGER;
ENTRY n >= 0;
EXIT s = 3 * n;
BEGIN
  s := 0;
  i := 0;
  INVARIANT (s = 3 * i) AND (i <= n)
  WHILE i < n DO
  BEGIN
    s := s + 3;
    i := i + 1
  END
END.

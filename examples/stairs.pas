PROGRAM stairs;
{ up one by one, and down by fives and ones: three loops that change k }
VAR n, k: INTEGER;
ENTRY n >= 0;
EXIT k = 0;
BEGIN
  k := 0;
  INVARIANT k <= n
  WHILE k < n DO k := k + 1;
  INVARIANT k >= 0
  WHILE k > 0 DO
  BEGIN
    INVARIANT k > 0
    WHILE k > 5 DO k := k - 5;
    k := k - 1
  END
END.

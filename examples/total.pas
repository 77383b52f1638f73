PROGRAM total;
{ the sum of the numbers up to n, counted upwards }
VAR i, n, s: INTEGER;
ENTRY n >= 0;
EXIT 2 * s = n * (n + 1);
BEGIN
  s := 0;
  INVARIANT (2 * s = i * (i - 1)) AND (i <= n + 1)
  FOR i := 1 TO n DO s := s + i
END.

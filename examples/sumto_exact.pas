PROGRAM sumtoexact;
{ twice 1 + 2 + .. + n: n * n is a product of which the prover knows nothing }
VAR s: INTEGER;
FUNCTION sum(n: INTEGER): INTEGER;
ENTRY n >= 0;
EXIT 2 * sum = n * n + n;
BEGIN
  IF n = 0 THEN sum := 0
  ELSE sum := sum(n - 1) + n
END;
BEGIN s := sum(10) END.

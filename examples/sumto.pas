PROGRAM sumto;
{ 1 + 2 + .. + n by recursion: at least n, without a product }
VAR s: INTEGER;
FUNCTION sum(n: INTEGER): INTEGER;
ENTRY n >= 0;
EXIT sum >= n;
BEGIN
  IF n = 0 THEN sum := 0
  ELSE sum := sum(n - 1) + n
END;
EXIT s >= 10;
BEGIN s := sum(10) END.

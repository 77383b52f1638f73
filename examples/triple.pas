PROGRAM triple;
{ a function that calls itself: its own EXIT is what it knows of the inner call }
VAR x, y: INTEGER;
FUNCTION three(n: INTEGER): INTEGER;
ENTRY n >= 0;
EXIT three = 3 * n;
BEGIN
  IF n = 0 THEN three := 0
  ELSE three := three(n - 1) + 3
END;
ENTRY x >= 0;
EXIT y = 3 * x + 3;
BEGIN y := three(x + 1) END.

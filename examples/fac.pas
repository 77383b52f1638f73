PROGRAM fac;
{ what the product of n and n - 1 factorial is, a rule has to say; the conditions can be read }
DECLARE Fact(INTEGER): INTEGER;
FUNCTION f(n: INTEGER): INTEGER;
ENTRY n >= 0;
EXIT f = Fact(n);
BEGIN
  IF n = 0 THEN f := 1
  ELSE f := n * f(n - 1)
END;
BEGIN END.

PROGRAM raised;
VAR a, b: INTEGER;
EXIT a > b;
BEGIN
  IF a < b THEN a := b;
  a := a + 1
END.

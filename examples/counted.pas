PROGRAM counted;
{ a counting loop: two for each of three turns }
VAR i, s: INTEGER;
EXIT s = 6;
BEGIN
  s := 0;
  INVARIANT (s = 2 * (i - 1)) AND (1 <= i) AND (i <= 4)
  FOR i := 1 TO 3 DO s := s + 2
END.

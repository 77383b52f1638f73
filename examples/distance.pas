PROGRAM distance;
{ how far a and b are apart }
VAR a, b, d: INTEGER;
EXIT (d >= 0) AND ((d = a - b) OR (d = b - a));
BEGIN
  d := a - b;
  IF d < 0 THEN d := -d
END.

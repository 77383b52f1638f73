PROGRAM climb;
VAR n, s, k: INTEGER;
EXIT s >= 0;
BEGIN
  s := 0;
  k := 0;
  INVARIANT s >= 0
  WHILE s < n DO
  BEGIN
    s := s + k;
    k := k + 1
  END
END.

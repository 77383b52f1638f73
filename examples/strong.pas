PROGRAM strong;
{ weak.pas with what was missing: k never passes n }
VAR n, k: INTEGER;
ENTRY n >= 0;
EXIT k = n;
BEGIN
  k := 0;
  INVARIANT (0 <= k) AND (k <= n)
  WHILE k < n DO k := k + 1
END.

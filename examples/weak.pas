PROGRAM weak;
{ an INVARIANT that says too little: what is known behind the loop does not give EXIT }
VAR n, k: INTEGER;
ENTRY n >= 0;
EXIT k = n;
BEGIN
  k := 0;
  INVARIANT 0 <= k
  WHILE k < n DO k := k + 1
END.

PROGRAM clear;
{ each place of an array is set to 0; k is any place of those that are to be }
VAR a: ARRAY [1..100] OF INTEGER; i, n, k: INTEGER;
ENTRY (1 <= k) AND (k <= n);
EXIT a[k] = 0;
BEGIN
  INVARIANT (k < i) -> (a[k] = 0)
  FOR i := 1 TO n DO a[i] := 0
END.

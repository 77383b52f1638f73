PROGRAM reverse;
{ an array is turned round in its own place: here, what becomes of its two ends }
VAR a: ARRAY [1..100] OF INTEGER; n, i, j, x, first, last: INTEGER;
ENTRY (1 <= n) AND (n <= 100) AND (a[1] = first) AND (a[n] = last);
EXIT (a[1] = last) AND (a[n] = first);
BEGIN
  i := 1;
  j := n;
  INVARIANT (1 <= i) AND (i + j = n + 1) AND (i <= j + 1)
    AND ((i = 1) -> (a[1] = first) AND (a[n] = last))
    AND ((i > 1) -> (a[1] = last) AND (a[n] = first))
    AND ((n = 1) -> (first = last))
  WHILE i < j DO
  BEGIN
    x := a[i];
    a[i] := a[j];
    a[j] := x;
    i := i + 1;
    j := j - 1
  END
END.

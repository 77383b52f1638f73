PROGRAM rotate;
{ the same, but two of the three places may be one }
VAR a: ARRAY [1..100] OF INTEGER; i, j, k, x, p, q, r: INTEGER;
ENTRY (a[i] = p) AND (a[j] = q) AND (a[k] = r) AND (i <> j) AND (j <> k);
EXIT (a[i] = q) AND (a[j] = r) AND (a[k] = p);
BEGIN
  x := a[i];
  a[i] := a[j];
  a[j] := a[k];
  a[k] := x
END.

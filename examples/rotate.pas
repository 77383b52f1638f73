PROGRAM rotate;
{ three elements change places in a circle }
VAR a: ARRAY [1..100] OF INTEGER; i, j, k, x, p, q, r: INTEGER;
ENTRY (a[i] = p) AND (a[j] = q) AND (a[k] = r) AND (i <> j) AND (j <> k) AND (k <> i);
EXIT (a[i] = q) AND (a[j] = r) AND (a[k] = p);
BEGIN
  x := a[i];
  a[i] := a[j];
  a[j] := a[k];
  a[k] := x
END.

PROGRAM find;
{ the first place of x in an array where it stands at the place k, if not before }
VAR a: ARRAY [1..100] OF INTEGER; n, x, at, k: INTEGER;
ENTRY (1 <= k) AND (k <= n) AND (a[k] = x);
EXIT (a[at] = x) AND (at <= k);
BEGIN
  at := 1;
  INVARIANT (1 <= at) AND (at <= k) AND (a[k] = x)
  WHILE a[at] <> x DO at := at + 1
END.

PROGRAM insert;
{ x is put in front of a[1..n], which moves up; k is any place of it, and v what stood there }
VAR a: ARRAY [1..100] OF INTEGER; n, i, x, k, v: INTEGER;
ENTRY (1 <= k) AND (k <= n) AND (a[k] = v);
EXIT (a[1] = x) AND (a[k + 1] = v);
BEGIN
  INVARIANT ((i < k) -> (a[k + 1] = v)) AND ((k <= i) -> (a[k] = v))
  FOR i := n DOWNTO 1 DO a[i + 1] := a[i];
  a[1] := x
END.

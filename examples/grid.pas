PROGRAM grid;
{ two rows of a table change places, number by number; q is any column, u and v what stood there }
TYPE Row = ARRAY [1..9] OF INTEGER; Grid = ARRAY [1..9] OF Row;
VAR g: Grid; i, j, k, q, u, v, kept: INTEGER;
ENTRY (i <> j) AND (1 <= q) AND (q <= 9) AND (g[i, q] = u) AND (g[j, q] = v);
EXIT (g[i, q] = v) AND (g[j, q] = u);
BEGIN
  INVARIANT (i <> j) AND ((q < k) -> ((g[i, q] = v) AND (g[j, q] = u)))
    AND ((k <= q) -> ((g[i, q] = u) AND (g[j, q] = v))) AND (1 <= q) AND (q <= 9)
  FOR k := 1 TO 9 DO
  BEGIN
    kept := g[i, k];
    g[i, k] := g[j, k];
    g[j, k] := kept
  END
END.

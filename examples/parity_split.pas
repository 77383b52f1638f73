PROGRAM parity;
{ parity.pas with what the prover does not see by itself: k is not between m and m + 1 }
VAR x, y, k, m: INTEGER;
ENTRY (x = 2 * k) AND (y = 2 * m + 1);
EXIT x <> y;
BEGIN ASSERT (k <= m) OR (k >= m + 1) END.

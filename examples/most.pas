PROGRAM most;
{ the greatest of the first n items of an array, and a place where it stands; what Most is, the rules say }
CONST max = 100;
TYPE Vector = ARRAY [1..max] OF INTEGER;
VAR a: Vector; n, i, m, at: INTEGER;
DECLARE Most(Vector, INTEGER): INTEGER;
ENTRY (1 <= n) AND (n <= max);
EXIT (m = Most(a, n)) AND (a[at] = m) AND (1 <= at) AND (at <= n);
BEGIN
  m := a[1]; at := 1;
  INVARIANT (m = Most(a, i - 1)) AND (a[at] = m) AND (1 <= at) AND (at < i) AND (i <= n + 1)
  FOR i := 2 TO n DO
    IF a[i] > m THEN BEGIN m := a[i]; at := i END
END.

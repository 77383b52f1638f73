PROGRAM bisect;
{ looks for x in an array that is in order, and halves where it may be; what "before" and "behind" say, the rules tell }
CONST max = 100;
TYPE Vector = ARRAY [1..max] OF INTEGER;
VAR a: Vector; n, x, lo, hi, mid: INTEGER; found: BOOLEAN;
DECLARE Sorted(Vector, INTEGER): BOOLEAN;
        Before(Vector, INTEGER, INTEGER, INTEGER): BOOLEAN;
        Behind(Vector, INTEGER, INTEGER, INTEGER): BOOLEAN;
ENTRY (0 <= n) AND (n <= max) AND Sorted(a, n);
EXIT (found AND (a[mid] = x)) OR (Before(a, x, lo - 1, n) AND Behind(a, x, lo, n));
BEGIN
  lo := 1; hi := n; mid := 1; found := FALSE;
  INVARIANT Sorted(a, n) AND Before(a, x, lo - 1, n) AND Behind(a, x, hi + 1, n)
    AND (1 <= lo) AND (lo <= hi + 1) AND (hi <= n) AND (NOT found OR (a[mid] = x))
  WHILE (lo <= hi) AND NOT found DO
  BEGIN
    mid := (lo + hi) DIV 2;
    IF a[mid] = x THEN found := TRUE
    ELSE IF a[mid] < x THEN lo := mid + 1
    ELSE hi := mid - 1
  END
END.

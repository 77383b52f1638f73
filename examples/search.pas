PROGRAM search;
{ Looks for x in the first n items of a, and then adds them up. What "absent" and "sum" are, the rules say. }
CONST max = 100;
TYPE Vector = ARRAY [1..max] OF INTEGER;
VAR a: Vector; n, x, at, i, s: INTEGER; found: BOOLEAN;
DECLARE Absent(Vector, INTEGER, INTEGER): BOOLEAN;
        Sum(Vector, INTEGER): INTEGER;
ENTRY (0 <= n) AND (n <= max);
EXIT ((found AND (a[at] = x)) OR Absent(a, x, n)) AND (s = Sum(a, n));
BEGIN
  at := 1; found := FALSE;
  INVARIANT Absent(a, x, at - 1) AND (NOT found OR (a[at] = x))
            AND (1 <= at) AND (at <= n + 1)
  WHILE (at <= n) AND NOT found DO
    IF a[at] = x THEN found := TRUE ELSE at := at + 1;
  s := 0;
  INVARIANT (s = Sum(a, i - 1)) AND (1 <= i) AND (i <= n + 1)
  FOR i := 1 TO n DO s := s + a[i]
END.

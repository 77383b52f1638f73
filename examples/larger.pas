PROGRAM larger;
{ the larger of two numbers, found in two ways }
VAR a, b, m: INTEGER;
EXIT ((m = a) OR (m = b)) AND (a <= m) AND (b <= m);
BEGIN
  IF a < b THEN m := b ELSE m := a;
  IF m <> a THEN ASSERT m = b
END.

PROGRAM meet;
{ two walkers, one step each at a time, until they meet or have just passed }
VAR x, y, s: INTEGER;
ENTRY (x <= y) AND (s = x + y);
EXIT (s = x + y) AND (y <= x) AND (x <= y + 1);
BEGIN
  INVARIANT (s = x + y) AND (x <= y + 1)
  WHILE x < y DO
  BEGIN
    x := x + 1;
    y := y - 1
  END
END.

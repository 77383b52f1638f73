PROGRAM exchange;
{ two numbers exchanged without a third place }
VAR x, y, a, b: INTEGER;
ENTRY (x = a) AND (y = b);
EXIT (x = b) AND (y = a);
BEGIN
  x := x + y;
  y := x - y;
  x := x - y
END.

PROGRAM swapwrong;
{ As swap.pas, with the last two statements in the wrong order. }
VAR x, y, t, a, b: INTEGER;
ENTRY (x = a) AND (y = b);
EXIT (x = b) AND (y = a);
BEGIN
  t := x;
  y := t;
  x := y
END.

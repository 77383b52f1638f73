PROGRAM countdown;
{ a call in the test of a loop: its EXIT is known in the body and behind the loop }
VAR x: INTEGER;
FUNCTION left(n: INTEGER): BOOLEAN;
ENTRY n >= 0;
EXIT (left -> (n > 0)) AND (NOT left -> (n = 0));
BEGIN left := n > 0 END;
ENTRY x >= 0;
EXIT x = 0;
BEGIN
  INVARIANT x >= 0
  WHILE left(x) DO x := x - 1
END.

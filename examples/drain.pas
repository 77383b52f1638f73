PROGRAM drain;
{ a loop without INVARIANT: behind it only its test is known, negated }
VAR x: INTEGER;
EXIT x <= 0;
BEGIN WHILE x > 0 DO x := x - 3 END.

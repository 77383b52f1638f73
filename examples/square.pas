PROGRAM square;
VAR x: INTEGER;
EXIT x * x >= 0;
BEGIN END.

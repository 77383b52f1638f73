PROGRAM same;
VAR x: INTEGER;
EXIT (* the line of the condition is that of its formula *)
  (x = x);
BEGIN END.

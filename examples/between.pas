PROGRAM between;
VAR a, b, m: INTEGER;
EXIT (a <= m) AND (m <= b);
BEGIN m := a END.

PROGRAM tip;
VAR meal, tip, bill: INTEGER;
EXIT bill > 2;
BEGIN
  tip := 2;
  bill := meal + tip
END.

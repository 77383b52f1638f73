PROGRAM wrong;
{ Each run ends with 7 in x. }
VAR x: INTEGER;
EXIT x = 5;
BEGIN x := 5; x := 7 END.

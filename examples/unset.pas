PROGRAM unset;
{ Nothing gives x a value, so at the end it may hold any number. }
VAR x: INTEGER;
EXIT x = 0;
BEGIN x := x END.

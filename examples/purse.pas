PROGRAM purse;
VAR p: INTEGER;
PROCEDURE spend(n: INTEGER; VAR rest: INTEGER);
INITIAL rest = had;
ENTRY n <= rest;
EXIT rest = had - n;
BEGIN rest := rest - n END;
ENTRY p = 8;
EXIT p = 3;
BEGIN spend(2 + 3, p) END.

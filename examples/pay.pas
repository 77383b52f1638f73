PROGRAM pay;
{ a purse is a global item; ENTRY of spend is owed by who calls it }
VAR purse: INTEGER;
PROCEDURE spend(n: INTEGER);
GLOBAL (VAR purse);
INITIAL purse = had;
ENTRY n <= purse;
EXIT (purse = had - n) AND (purse >= 0);
BEGIN purse := purse - n END;
ENTRY purse >= 0;
EXIT purse >= 0;
BEGIN
  IF purse >= 5 THEN spend(5)
END.

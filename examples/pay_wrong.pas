PROGRAM paywrong;
{ nobody looked whether there are 5 in the purse }
VAR purse: INTEGER;
PROCEDURE spend(n: INTEGER);
GLOBAL (VAR purse);
INITIAL purse = had;
ENTRY n <= purse;
EXIT (purse = had - n) AND (purse >= 0);
BEGIN purse := purse - n END;
ENTRY purse >= 0;
EXIT purse >= 0;
BEGIN spend(5) END.

PROGRAM twins;
{ of Age and Older nothing is known, but that equals give equals }
VAR a, b: INTEGER;
DECLARE Age(INTEGER): INTEGER; Older(INTEGER, INTEGER): BOOLEAN;
ENTRY (a = b) AND Older(a, b);
EXIT (Age(a) = Age(b)) AND Older(b, a);
BEGIN END.

PROGRAM nostart;
{ no start meets this ENTRY, so whatever EXIT says is proved }
VAR a, b, c: INTEGER;
ENTRY (a < b) AND (b < c) AND (c < a + 2);
EXIT a = 100;
BEGIN a := 7 END.

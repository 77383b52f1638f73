PROGRAM halved;
{ a quotient, and what is left }
VAR n, h: INTEGER;
ENTRY n >= 0;
EXIT (2 * h <= n) AND (n < 2 * h + 2);
BEGIN h := n DIV 2 END.

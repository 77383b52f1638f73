PROGRAM inner;
{ a call in the argument of another: the inner one comes first }
VAR b: INTEGER;
FUNCTION inc(n: INTEGER): INTEGER;
EXIT inc = n + 1;
BEGIN inc := n + 1 END;
ENTRY b = 4;
EXIT b = 6;
BEGIN b := inc(inc(b)) END.

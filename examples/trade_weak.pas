PROGRAM tradeweak;
{ who calls swap knows no more of it than its EXIT says }
VAR a, b: INTEGER;
PROCEDURE swap(VAR p, q: INTEGER);
INITIAL q = q0;
EXIT p = q0;
VAR t: INTEGER;
BEGIN
  t := p;
  p := q;
  q := t
END;
ENTRY (a = 1) AND (b = 2);
EXIT (a = 2) AND (b = 1);
BEGIN swap(a, b) END.

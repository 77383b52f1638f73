PROGRAM trade;
{ a procedure that exchanges what its two VAR parameters hold }
VAR a, b: INTEGER;
PROCEDURE swap(VAR p, q: INTEGER);
INITIAL p = p0, q = q0;
EXIT (p = q0) AND (q = p0);
VAR t: INTEGER;
BEGIN
  t := p;
  p := q;
  q := t
END;
ENTRY (a = 1) AND (b = 2);
EXIT (a = 2) AND (b = 1);
BEGIN swap(a, b) END.

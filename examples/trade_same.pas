PROGRAM tradesame;
{ one variable for two VAR parameters: refused }
VAR a, b: INTEGER;
PROCEDURE swap(VAR p, q: INTEGER);
INITIAL p = p0, q = q0;
EXIT (p = q0) AND (q = p0);
VAR t: INTEGER;
BEGIN
  t := p;
  p := q;
  q := t
END;
BEGIN swap(a, a) END.

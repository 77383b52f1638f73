PROGRAM ordered;
{ three numbers put in order by exchanges; their sum stays }
VAR a, b, c, t, s: INTEGER;
ENTRY s = a + b + c;
EXIT (a <= b) AND (b <= c) AND (s = a + b + c);
BEGIN
  IF a > b THEN BEGIN t := a; a := b; b := t END;
  IF b > c THEN BEGIN t := b; b := c; c := t END;
  IF a > b THEN BEGIN t := a; a := b; b := t END
END.

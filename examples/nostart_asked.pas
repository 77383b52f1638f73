PROGRAM asked;
{ nostart.pas with the question whether there is a start: PROVED says there is none }
VAR a, b, c: INTEGER;
ENTRY (a < b) AND (b < c) AND (c < a + 2);
EXIT a = 100;
BEGIN
  ASSERT FALSE;
  a := 7
END.

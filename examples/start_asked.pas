PROGRAM asked;
{ the same question where there is a start: UNPROVED, and the table is one }
VAR a, b, c: INTEGER;
ENTRY (a < b) AND (b < c) AND (c < a + 3);
EXIT a = 7;
BEGIN
  ASSERT FALSE;
  a := 7
END.

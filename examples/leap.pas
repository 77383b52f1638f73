PROGRAM leap;
{ two ways to say which years are leap years; y DIV and MOD 4, 100 and 400 are variables, since MOD is not verified yet }
VAR y, q4, r4, q100, r100, q400, r400: INTEGER; isleap: BOOLEAN;
ENTRY (y = 4 * q4 + r4) AND (0 <= r4) AND (r4 < 4)
  AND (y = 100 * q100 + r100) AND (0 <= r100) AND (r100 < 100)
  AND (y = 400 * q400 + r400) AND (0 <= r400) AND (r400 < 400);
EXIT isleap = (((r4 = 0) AND (r100 <> 0)) OR (r400 = 0));
BEGIN
  ASSERT (q4 <= 100 * q400 - 1) OR (q4 >= 100 * q400);
  isleap := (r4 = 0) AND ((r100 <> 0) OR (r400 = 0))
END.

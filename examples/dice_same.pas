PROGRAM dicesame;
{ two calls without an argument need not give the same }
VAR d: INTEGER;
FUNCTION roll: INTEGER;
EXIT (1 <= roll) AND (roll <= 6);
VAR r: INTEGER;
BEGIN
  IF (1 <= r) AND (r <= 6) THEN roll := r ELSE roll := 1
END;
EXIT d = 0;
BEGIN d := roll - roll END.

PROGRAM dice;
{ one function twice in an expression: each call has a value of its own }
VAR s: INTEGER;
FUNCTION roll: INTEGER;
EXIT (1 <= roll) AND (roll <= 6);
VAR r: INTEGER;
BEGIN
  IF (1 <= r) AND (r <= 6) THEN roll := r ELSE roll := 1
END;
EXIT (2 <= s) AND (s <= 12);
BEGIN s := roll + roll END.

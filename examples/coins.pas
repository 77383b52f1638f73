PROGRAM coins;
{ a sum in as few coins of 50, 20 and 10 as can be; less than 10 stays }
VAR sum, rest, fifty, twenty, ten: INTEGER;
ENTRY sum >= 0;
EXIT (sum = 50 * fifty + 20 * twenty + 10 * ten + rest)
  AND (rest < 10) AND (ten <= 1) AND (twenty <= 2);
BEGIN
  rest := sum;
  fifty := 0;
  twenty := 0;
  ten := 0;
  INVARIANT (sum = 50 * fifty + rest) AND (rest >= 0)
  WHILE rest >= 50 DO
  BEGIN
    fifty := fifty + 1;
    rest := rest - 50
  END;
  INVARIANT (sum = 50 * fifty + 20 * twenty + rest) AND (rest >= 0)
  WHILE rest >= 20 DO
  BEGIN
    twenty := twenty + 1;
    rest := rest - 20
  END;
  IF rest >= 10 THEN
  BEGIN
    ten := 1;
    rest := rest - 10
  END
END.

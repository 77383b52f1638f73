PROGRAM change;
{ coins of ten, taken off one by one; the body of REPEAT runs before its test }
VAR sum, rest, coins: INTEGER;
ENTRY sum >= 10;
EXIT (sum = 10 * coins + rest) AND (0 <= rest) AND (rest < 10);
BEGIN
  rest := sum;
  coins := 0;
  INVARIANT (sum = 10 * coins + rest) AND (rest >= 10)
  REPEAT
    rest := rest - 10;
    coins := coins + 1
  UNTIL rest < 10
END.

PROGRAM nochange;
{ as change.pas for any sum that is not below 0: the first turn may come too early }
VAR sum, rest, coins: INTEGER;
ENTRY sum >= 0;
EXIT (sum = 10 * coins + rest) AND (0 <= rest) AND (rest < 10);
BEGIN
  rest := sum;
  coins := 0;
  INVARIANT (sum = 10 * coins + rest) AND (rest >= 10)
  REPEAT
    rest := rest - 10;
    coins := coins + 1
  UNTIL rest < 10
END.

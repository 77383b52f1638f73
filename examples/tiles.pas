PROGRAM tiles;
{ three rows of four tiles, laid one by one: a loop in a loop }
VAR row, column, laid: INTEGER;
EXIT laid = 12;
BEGIN
  laid := 0;
  INVARIANT (laid = 4 * (row - 1)) AND (row <= 4)
  FOR row := 1 TO 3 DO
    INVARIANT (laid = 4 * (row - 1) + (column - 1)) AND (column <= 5)
    FOR column := 1 TO 4 DO laid := laid + 1
END.

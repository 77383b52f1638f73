PROGRAM eggs;
{ eggs in boxes of six }
VAR eggs, boxes, loose: INTEGER;
ENTRY eggs >= 0;
EXIT (eggs = 6 * boxes + loose) AND (0 <= loose) AND (loose < 6);
BEGIN
  boxes := 0;
  loose := eggs;
  INVARIANT (eggs = 6 * boxes + loose) AND (0 <= loose)
  WHILE loose >= 6 DO
  BEGIN
    boxes := boxes + 1;
    loose := loose - 6
  END
END.

PROGRAM fare;
{ what a ride costs by its zones; a run with any other number stops at CASE }
VAR zones, cents: INTEGER;
EXIT (cents >= 250) AND (zones <= 5);
BEGIN
  CASE zones OF
    1: cents := 250;
    2, 3: cents := 400;
    4, 5: cents := 600
  END
END.

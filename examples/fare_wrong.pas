PROGRAM wrongfare;
{ each zone should cost 100 more; one of the three arms says otherwise }
VAR zones, cents: INTEGER;
EXIT cents = 150 + 100 * zones;
BEGIN
  CASE zones OF
    1: cents := 250;
    2: cents := 350;
    3: cents := 400
  END
END.

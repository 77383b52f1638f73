PROGRAM rocket;
{ a FOR that counts down: two units of fuel for each of ten seconds }
VAR t, fuel: INTEGER;
EXIT fuel = 0;
BEGIN
  fuel := 20;
  INVARIANT (fuel = 2 * t) AND (0 <= t)
  FOR t := 10 DOWNTO 1 DO fuel := fuel - 2
END.

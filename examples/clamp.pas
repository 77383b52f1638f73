PROGRAM clamp;
{ a number brought between two bounds; EXIT tells its three cases by -> }
VAR x, low, high, y: INTEGER;
ENTRY low <= high;
EXIT ((x < low) -> (y = low)) AND ((x > high) -> (y = high))
  AND ((low <= x) AND (x <= high) -> (y = x));
BEGIN
  y := x;
  IF y < low THEN y := low
  ELSE IF y > high THEN y := high
END.

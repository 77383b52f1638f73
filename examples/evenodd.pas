PROGRAM evenodd;
{ two functions that call each other; of 0 and 1 EXIT says what they give }
VAR a, b: BOOLEAN;
FUNCTION odd(n: INTEGER): BOOLEAN;
ENTRY n >= 0;
EXIT ((n = 0) -> NOT odd) AND ((n = 1) -> odd);
FORWARD;
FUNCTION even(n: INTEGER): BOOLEAN;
ENTRY n >= 0;
EXIT ((n = 0) -> even) AND ((n = 1) -> NOT even);
BEGIN
  IF n = 0 THEN even := TRUE
  ELSE even := odd(n - 1)
END;
FUNCTION odd;
BEGIN
  IF n = 0 THEN odd := FALSE
  ELSE odd := even(n - 1)
END;
EXIT a AND NOT b;
BEGIN
  a := even(0);
  b := even(1)
END.

PROGRAM vote;
{ two of three judges decide }
VAR a, b, c, passed: BOOLEAN;
EXIT passed = ((a AND b) OR (a AND c) OR (b AND c));
BEGIN
  IF a = b THEN passed := a ELSE passed := c
END.

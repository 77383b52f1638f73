PROGRAM wrongvote;
{ as vote.pas, but here the second judge decides alone where the first says no }
VAR a, b, c, passed: BOOLEAN;
EXIT passed = ((a AND b) OR (a AND c) OR (b AND c));
BEGIN
  IF a THEN passed := b OR c ELSE passed := b
END.

PROGRAM wide;
{ a number on the way is too large for the prover: it gives up, and says where }
VAR x: INTEGER;
EXIT 9223372036854775807 * (9223372036854775807 * (9223372036854775807 * x)) = 1;
BEGIN END.

PROGRAM half;
{ true of whole numbers, but the prover reasons with fractions }
VAR x: INTEGER;
EXIT 2 * x <> 1;
BEGIN END.

PROGRAM knights;
{ a says: b lies. b says: a and b are of one kind. Who tells the truth? }
VAR a, b: BOOLEAN;
ENTRY (a = NOT b) AND (b = (a = b));
EXIT a AND NOT b;
BEGIN END.

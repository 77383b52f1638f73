PROGRAM flip;
{ two places of an array change places, whether they are one or two }
VAR a, b: ARRAY [1..10] OF INTEGER; i, j, t: INTEGER;
ENTRY (b[i] = a[i]) AND (b[j] = a[j]);
EXIT (a[i] = b[j]) AND (a[j] = b[i]);
BEGIN
  t := a[i];
  a[i] := a[j];
  a[j] := t
END.

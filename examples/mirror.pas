PROGRAM mirror;
{ Eight elements change places by four exchanges, each through x; b keeps what a was. }
TYPE row = ARRAY [1..8] OF INTEGER;
VAR a, b: row; x: INTEGER;
ENTRY a = b;
EXIT (a[1] = b[8]) AND (a[2] = b[7]) AND (a[3] = b[6]) AND (a[4] = b[5]) AND
     (a[5] = b[4]) AND (a[6] = b[3]) AND (a[7] = b[2]) AND (a[8] = b[1]);
BEGIN
  x := a[1]; a[1] := a[8]; a[8] := x;
  x := a[2]; a[2] := a[7]; a[7] := x;
  x := a[3]; a[3] := a[6]; a[6] := x;
  x := a[4]; a[4] := a[5]; a[5] := x
END.

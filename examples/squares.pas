PROGRAM squares;
{ A table is filled element by element; what was written first is still there. }
TYPE table = ARRAY [0..24] OF INTEGER;
VAR t: table;
EXIT (t[0] = 0) AND (t[5] = 25) AND (t[24] = 576);
BEGIN
  t[0] := 0; t[1] := 1; t[2] := 4; t[3] := 9; t[4] := 16;
  t[5] := 25; t[6] := 36; t[7] := 49; t[8] := 64; t[9] := 81;
  t[10] := 100; t[11] := 121; t[12] := 144; t[13] := 169; t[14] := 196;
  t[15] := 225; t[16] := 256; t[17] := 289; t[18] := 324; t[19] := 361;
  t[20] := 400; t[21] := 441; t[22] := 484; t[23] := 529; t[24] := 576
END.

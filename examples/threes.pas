PROGRAM threes;
{ three numbers of an array are put into order }
VAR a: ARRAY [1..3] OF INTEGER; t: INTEGER;
EXIT (a[1] <= a[2]) AND (a[2] <= a[3]);
BEGIN
  IF a[1] > a[2] THEN BEGIN t := a[1]; a[1] := a[2]; a[2] := t END;
  IF a[2] > a[3] THEN BEGIN t := a[2]; a[2] := a[3]; a[3] := t END;
  IF a[1] > a[2] THEN BEGIN t := a[1]; a[1] := a[2]; a[2] := t END
END.

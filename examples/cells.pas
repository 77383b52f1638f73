PROGRAM cells;
{ the cell of another pointer is given a value; conditions to work out by hand }
TYPE Ref = ^Node; Node = RECORD val: INTEGER END;
VAR p, q: Ref;
ENTRY p <> q;
EXIT p^.val = 1;
BEGIN
  p^.val := 1;
  q^.val := 2
END.

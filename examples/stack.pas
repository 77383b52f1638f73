PROGRAM stack;
{ a stack of cells: what was pushed last is on top, and below it is what was there }
TYPE Ref = ^Cell; Cell = RECORD value: INTEGER; below: Ref END;
VAR top: Ref; x: INTEGER;
PROCEDURE push(x: INTEGER);
GLOBAL (VAR top, #Cell);
INITIAL top = old, #Cell = cells;
ENTRY (top = NIL) OR POINTERTO(top, #Cell);
EXIT (top <> NIL) AND POINTERTO(top, #Cell) AND (top^.value = x) AND (top^.below = old)
  AND ((old = NIL) OR (CELL(#Cell, old) = CELL(cells, old)));
VAR p: Ref;
BEGIN
  NEW(p);
  p^.value := x;
  p^.below := top;
  top := p
END;
PROCEDURE pop(VAR x: INTEGER);
GLOBAL (VAR top; #Cell);
INITIAL top = old;
ENTRY top <> NIL;
EXIT (x = old^.value) AND (top = old^.below);
BEGIN
  x := top^.value;
  top := top^.below
END;
ENTRY top = NIL;
EXIT (x = 2) AND (top <> NIL) AND (top^.value = 1);
BEGIN
  push(1);
  push(2);
  pop(x)
END.

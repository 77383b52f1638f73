PROGRAM turn;
{ three linked cells are turned round in their own place }
TYPE Ref = ^Node; Node = RECORD val: INTEGER; next: Ref END;
VAR a, b, c, done, rest, here: Ref;
ENTRY (a <> b) AND (b <> c) AND (c <> a)
  AND (a^.next = b) AND (b^.next = c) AND (c^.next = NIL);
EXIT (done = c) AND (c^.next = b) AND (b^.next = a) AND (a^.next = NIL);
BEGIN
  done := NIL;
  here := a;
  rest := here^.next; here^.next := done; done := here; here := rest;
  rest := here^.next; here^.next := done; done := here; here := rest;
  rest := here^.next; here^.next := done; done := here; here := rest
END.

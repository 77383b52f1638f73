PROGRAM chain;
{ adds up the values of a list of cells; what the sum of such a list is, the rules say }
TYPE Ref = ^Cell; Cell = RECORD value: INTEGER; next: Ref END;
VAR head, p: Ref; s: INTEGER;
DECLARE Sum(#Cell, Ref): INTEGER;
EXIT s = Sum(#Cell, head);
BEGIN
  p := head; s := 0;
  INVARIANT s + Sum(#Cell, p) = Sum(#Cell, head)
  WHILE p <> NIL DO
  BEGIN
    s := s + p^.value;
    p := p^.next
  END
END.

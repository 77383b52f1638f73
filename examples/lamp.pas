PROGRAM lamp;
{ a lamp with one button: off, dim, bright, off ..; three presses come back to where it began }
const off = 0; dim = 1; bright = 2;
var state, begun, presses: integer;
    lit: boolean;
entry (state = begun) and ((state = off) or (state = dim) or (state = bright));
exit (state = begun) and (lit = (state <> off));
begin
  invariant (1 <= presses) and (presses <= 4) and (off <= state) and (state <= bright)
    and ((presses = 1) -> (state = begun)) and ((presses = 2) -> ((state = begun + 1) or (state = begun - 2)))
    and ((presses = 3) -> ((state = begun + 2) or (state = begun - 1))) and ((presses = 4) -> (state = begun))
  for presses := 1 to 3 do
    case state of
      off: state := dim;
      dim: state := bright;
      bright: state := off
    end;
  lit := state > off
end.

PROGRAM dearer;
{ as cheaper.pas, but nothing says which of the two prices is the lower one }
VAR a, b, best, paid: INTEGER;
DECLARE Price(INTEGER): INTEGER;
ENTRY paid = Price(a);
EXIT (Price(best) <= Price(b)) AND (Price(best) = paid);
BEGIN best := a END.

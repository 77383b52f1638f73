PROGRAM cheaper;
{ the cheaper of two offers; of their prices nothing is known but what ENTRY says }
VAR a, b, best, paid: INTEGER;
DECLARE Price(INTEGER): INTEGER;
ENTRY (Price(a) <= Price(b)) AND (paid = Price(a));
EXIT (Price(best) <= Price(b)) AND (Price(best) = paid);
BEGIN best := a END.

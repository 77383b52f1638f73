PROGRAM shipping;
{ nothing to pay for the parcel from 50 on, and 5 below }
VAR goods, total: INTEGER;
ENTRY goods > 0;
EXIT (total >= goods) AND (total <= goods + 5) AND ((goods < 50) -> (total = goods + 5));
BEGIN
  total := goods;
  IF goods < 50 THEN total := total + 5
END.

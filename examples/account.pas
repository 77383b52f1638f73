PROGRAM account;
{ from one account to another: p and q are two }
TYPE Ref = ^Account; Account = RECORD balance: INTEGER END;
VAR p, q: Ref; n, m, k: INTEGER;
ENTRY (p <> q) AND (p^.balance = m) AND (q^.balance = k);
EXIT (p^.balance = m - n) AND (q^.balance = k + n);
BEGIN
  p^.balance := p^.balance - n;
  q^.balance := q^.balance + n
END.

PROGRAM endless;
{ a procedure that never ends proves all that is behind its call }
PROCEDURE again;
EXIT FALSE;
BEGIN again END;
BEGIN
  again;
  ASSERT FALSE
END.

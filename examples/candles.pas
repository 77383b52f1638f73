PROGRAM candles;
{ all candles are blown out, one after the other }
VAR all, lit, dark: INTEGER;
ENTRY all >= 0;
EXIT dark = all;
BEGIN
  lit := all;
  dark := 0;
  INVARIANT (lit + dark = all) AND (lit >= 0)
  WHILE lit > 0 DO
  BEGIN
    lit := lit - 1;
    dark := dark + 1
  END
END.

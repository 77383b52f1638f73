PROGRAM parity;
{ an even number is no odd one }
VAR x, y, k, m: INTEGER;
ENTRY (x = 2 * k) AND (y = 2 * m + 1);
EXIT x <> y;
BEGIN END.

PROGRAM oven;
{ conditions do not know that dial is in its subrange: ENTRY says it }
CONST max = 250;
VAR dial: 0..max; heat: INTEGER;
ENTRY (0 <= dial) AND (dial <= max);
EXIT (50 <= heat) AND (heat <= max + 50);
BEGIN heat := dial + 50 END.

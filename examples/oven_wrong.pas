PROGRAM coldoven;
{ as oven.pas without its ENTRY: the table leaves the subrange }
CONST max = 250;
VAR dial: 0..max; heat: INTEGER;
EXIT (50 <= heat) AND (heat <= max + 50);
BEGIN heat := dial + 50 END.

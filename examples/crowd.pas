PROGRAM crowd;
{ fifty people in a row, each taller than the one before: so the last one is at least 49 taller than the first }
VAR p1, p2, p3, p4, p5, p6, p7, p8, p9, p10, p11, p12, p13, p14, p15, p16, p17, p18, p19, p20, p21, p22,
    p23, p24, p25, p26, p27, p28, p29, p30, p31, p32, p33, p34, p35, p36, p37, p38, p39, p40, p41, p42,
    p43, p44, p45, p46, p47, p48, p49, p50: INTEGER;
DECLARE Height(INTEGER): INTEGER;
ENTRY (Height(p1) < Height(p2)) AND (Height(p2) < Height(p3)) AND (Height(p3) < Height(p4)) AND
  (Height(p4) < Height(p5)) AND (Height(p5) < Height(p6)) AND (Height(p6) < Height(p7)) AND
  (Height(p7) < Height(p8)) AND (Height(p8) < Height(p9)) AND (Height(p9) < Height(p10)) AND
  (Height(p10) < Height(p11)) AND (Height(p11) < Height(p12)) AND (Height(p12) < Height(p13)) AND
  (Height(p13) < Height(p14)) AND (Height(p14) < Height(p15)) AND (Height(p15) < Height(p16)) AND
  (Height(p16) < Height(p17)) AND (Height(p17) < Height(p18)) AND (Height(p18) < Height(p19)) AND
  (Height(p19) < Height(p20)) AND (Height(p20) < Height(p21)) AND (Height(p21) < Height(p22)) AND
  (Height(p22) < Height(p23)) AND (Height(p23) < Height(p24)) AND (Height(p24) < Height(p25)) AND
  (Height(p25) < Height(p26)) AND (Height(p26) < Height(p27)) AND (Height(p27) < Height(p28)) AND
  (Height(p28) < Height(p29)) AND (Height(p29) < Height(p30)) AND (Height(p30) < Height(p31)) AND
  (Height(p31) < Height(p32)) AND (Height(p32) < Height(p33)) AND (Height(p33) < Height(p34)) AND
  (Height(p34) < Height(p35)) AND (Height(p35) < Height(p36)) AND (Height(p36) < Height(p37)) AND
  (Height(p37) < Height(p38)) AND (Height(p38) < Height(p39)) AND (Height(p39) < Height(p40)) AND
  (Height(p40) < Height(p41)) AND (Height(p41) < Height(p42)) AND (Height(p42) < Height(p43)) AND
  (Height(p43) < Height(p44)) AND (Height(p44) < Height(p45)) AND (Height(p45) < Height(p46)) AND
  (Height(p46) < Height(p47)) AND (Height(p47) < Height(p48)) AND (Height(p48) < Height(p49)) AND
  (Height(p49) < Height(p50));
EXIT Height(p1) + 49 <= Height(p50);
BEGIN END.

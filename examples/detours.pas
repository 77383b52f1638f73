PROGRAM detours;
{ a parcel goes by one of two hands, eight times over; each of them gives on what it was given }
VAR p0, p1, p2, p3, p4, p5, p6, p7, p8: INTEGER;
    a1, a2, a3, a4, a5, a6, a7, a8, b1, b2, b3, b4, b5, b6, b7, b8: INTEGER;
BEGIN
  ASSERT (((a1 = p0) AND (p1 = a1)) OR ((b1 = p0) AND (p1 = b1))) AND
    (((a2 = p1) AND (p2 = a2)) OR ((b2 = p1) AND (p2 = b2))) AND
    (((a3 = p2) AND (p3 = a3)) OR ((b3 = p2) AND (p3 = b3))) AND
    (((a4 = p3) AND (p4 = a4)) OR ((b4 = p3) AND (p4 = b4))) AND
    (((a5 = p4) AND (p5 = a5)) OR ((b5 = p4) AND (p5 = b5))) AND
    (((a6 = p5) AND (p6 = a6)) OR ((b6 = p5) AND (p6 = b6))) AND
    (((a7 = p6) AND (p7 = a7)) OR ((b7 = p6) AND (p7 = b7))) AND
    (((a8 = p7) AND (p8 = a8)) OR ((b8 = p7) AND (p8 = b8)))
    -> (p8 = p0)
END.

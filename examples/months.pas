PROGRAM months;
{ what is said of each month by itself holds of any one }
VAR m: INTEGER;
DECLARE Days(INTEGER): INTEGER;
BEGIN
  ASSERT (1 <= m) AND (m <= 12) AND
    (Days(1) = 31) AND (28 <= Days(2)) AND (Days(2) <= 29) AND (Days(3) = 31) AND (Days(4) = 30) AND
    (Days(5) = 31) AND (Days(6) = 30) AND (Days(7) = 31) AND (Days(8) = 31) AND (Days(9) = 30) AND
    (Days(10) = 31) AND (Days(11) = 30) AND (Days(12) = 31)
    -> (28 <= Days(m))
END.

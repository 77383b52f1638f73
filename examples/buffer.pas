PROGRAM buffer;
{ a ring buffer of ten places in a record: what is put into an empty one comes out of it }
TYPE Ring = RECORD data: ARRAY [0..9] OF INTEGER; first, next, count: INTEGER END;
VAR r: Ring; x, y: INTEGER;
PROCEDURE enter(VAR r: Ring; x: INTEGER);
INITIAL r = old;
ENTRY r.count < 10;
EXIT (r.data = STORE(old.data, old.next, x)) AND (r.first = old.first)
  AND (r.count = old.count + 1);
BEGIN
  r.data[r.next] := x;
  IF r.next = 9 THEN r.next := 0 ELSE r.next := r.next + 1;
  r.count := r.count + 1
END;
PROCEDURE leave(VAR r: Ring; VAR x: INTEGER);
INITIAL r = old;
ENTRY r.count > 0;
EXIT (x = old.data[old.first]) AND (r.data = old.data)
  AND (r.count = old.count - 1);
BEGIN
  x := r.data[r.first];
  IF r.first = 9 THEN r.first := 0 ELSE r.first := r.first + 1;
  r.count := r.count - 1
END;
ENTRY (r.count = 0) AND (r.first = r.next);
EXIT (y = x) AND (r.count = 0);
BEGIN
  enter(r, x);
  leave(r, y)
END.

program Last;
{ The last assignment decides. Small and capital letters are the same,
  and empty statements do nothing. }
var Count: integer;
exit 30 = count;
begin
  count := 10;
  count := count;
  COUNT := 030;
end.

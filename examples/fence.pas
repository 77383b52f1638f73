PROGRAM fence;
{ a fence of n pieces needs one post more }
VAR n, i, posts: INTEGER;
ENTRY n >= 0;
EXIT posts = n + 1;
BEGIN
  posts := 1;
  INVARIANT (posts = i) AND (i <= n + 1)
  FOR i := 1 TO n DO posts := posts + 1
END.

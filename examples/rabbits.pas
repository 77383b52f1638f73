PROGRAM rabbits;
{ the n-th Fibonacci number, by a loop that keeps two of them; what Fib is, the rules say }
VAR n, i, x, y, next: INTEGER;
DECLARE Fib(INTEGER): INTEGER;
ENTRY n >= 0;
EXIT x = Fib(n);
BEGIN
  i := 0; x := 0; y := 1;
  INVARIANT (x = Fib(i)) AND (y = Fib(i + 1)) AND (0 <= i) AND (i <= n)
  WHILE i < n DO
  BEGIN
    next := x + y;
    x := y;
    y := next;
    i := i + 1
  END
END.

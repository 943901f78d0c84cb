{ NEW, MARK, RELEASE and MEMAVAIL. The heap is an array of the program, with
  HEAPWORDS words, of which the first USED are taken. ADDRESS is a function for
  the library alone. }
{$R-}
VAR
  USED: INTEGER;
  ROOM: ARRAY[1..HEAPWORDS] OF INTEGER;

FUNCTION TAKEROOM(N: INTEGER): INTEGER;  { the address; an execution error if it is full }
VAR
  LEFT: 0..MAXINT;
BEGIN
  IF HASFILES = 1 THEN N := N + TOPUSED;
  {$R+} LEFT := HEAPWORDS - USED - N; {$R-}  { error 1: the heap is full }
  IF HASFILES = 1 THEN N := N - TOPUSED;
  TAKEROOM := ADDRESS(ROOM) + 2 * USED;
  USED := USED + N
END;

PROCEDURE GIVEBACK(AT: INTEGER);
VAR
  BACK: 0..HEAPWORDS;
BEGIN
  {$R+} BACK := (AT - ADDRESS(ROOM)) DIV 2; {$R-}  { error 1: MARK gave no such pointer }
  USED := BACK
END;

FUNCTION MEMORY: INTEGER;
BEGIN
  IF HASFILES = 1 THEN MEMORY := HEAPWORDS - USED - TOPUSED ELSE MEMORY := HEAPWORDS - USED
END;

PROGRAM TOWERS;
{ Moves a tower of discs from peg A to peg C. Prints each move, with how many
  discs the pegs then have, and whether there were as few moves as can be. A
  line ends in LF (10), as terminals have it; the p-System had CR (13). }
CONST
  CONSOLE = 1;
  LF = 10;
  DISCS = 4;

PROCEDURE PUT(C: CHAR);
BEGIN
  UNITWRITE(CONSOLE, C, 1)
END;

FUNCTION FEWEST(HEIGHT: INTEGER): INTEGER;
BEGIN
  IF HEIGHT = 0 THEN FEWEST := 0
  ELSE FEWEST := 2 * FEWEST(HEIGHT - 1) + 1
END;

PROCEDURE SOLVE(HEIGHT: INTEGER);
VAR
  PEGS: ARRAY[0..2] OF INTEGER;  { how many discs each peg has }
  MOVES: INTEGER;

  PROCEDURE SHOW(FROM, GOAL: INTEGER);
  VAR
    LINE: PACKED ARRAY[0..31] OF CHAR;
    LENGTH, PEG: INTEGER;

    PROCEDURE ADD(C: CHAR);
    BEGIN
      LINE[LENGTH] := C;
      LENGTH := LENGTH + 1
    END;

    PROCEDURE ADDNUMBER(N: INTEGER);
    BEGIN
      IF N >= 10 THEN ADDNUMBER(N DIV 10);
      ADD(CHR(N MOD 10 + ORD('0')))
    END;

  BEGIN { SHOW }
    LENGTH := 0;
    ADDNUMBER(MOVES);
    ADD(':'); ADD(' ');
    ADD(CHR(FROM + ORD('A')));
    ADD('-');
    ADD(CHR(GOAL + ORD('A')));
    FOR PEG := 0 TO 2 DO
      BEGIN
        ADD(' ');
        ADDNUMBER(PEGS[PEG])
      END;
    ADD(CHR(LF));
    UNITWRITE(CONSOLE, LINE, LENGTH)
  END;

  PROCEDURE MOVE(N, FROM, GOAL: INTEGER);
  VAR
    SPARE: INTEGER;
  BEGIN
    IF N > 0 THEN
      BEGIN
        SPARE := 3 - FROM - GOAL;
        MOVE(N - 1, FROM, SPARE);
        PEGS[FROM] := PEGS[FROM] - 1;
        PEGS[GOAL] := PEGS[GOAL] + 1;
        MOVES := MOVES + 1;
        SHOW(FROM, GOAL);
        MOVE(N - 1, SPARE, GOAL)
      END
  END;

BEGIN { SOLVE }
  PEGS[0] := HEIGHT; PEGS[1] := 0; PEGS[2] := 0;
  MOVES := 0;
  MOVE(HEIGHT, 0, 2);
  IF (MOVES = FEWEST(HEIGHT)) AND (PEGS[2] = HEIGHT) THEN
    BEGIN
      PUT('D'); PUT('O'); PUT('N'); PUT('E'); PUT(CHR(LF))
    END
END;

BEGIN
  SOLVE(DISCS)
END.

PROGRAM FOUR;
{ Four in a row, for two. X and O drop stones into seven columns by turns; who
  has four in a row, a column or a diagonal has won. In a group each player
  types at a node of his own, and both see the same board. }
CONST
  COLUMNS = 7;
  ROWS = 6;
  WANTED = 4;
TYPE
  COLUMN = 1..COLUMNS;
  ROW = 1..ROWS;
  STONE = (EMPTY, X, O);
VAR
  BOARD: ARRAY[COLUMN, ROW] OF STONE;
  PLAYER: STONE;
  STONES: INTEGER;                 { that have been dropped }
  WON, DONE: BOOLEAN;
  ANSWER: STRING;

FUNCTION SIGN(S: STONE): CHAR;
BEGIN
  CASE S OF
    EMPTY: SIGN := '.';
    X: SIGN := 'X';
    O: SIGN := 'O'
  END
END;

PROCEDURE CLEAR;
VAR
  C: COLUMN;
  R: ROW;
BEGIN
  FOR C := 1 TO COLUMNS DO
    FOR R := 1 TO ROWS DO BOARD[C, R] := EMPTY;
  STONES := 0;
  WON := FALSE;
  PLAYER := X
END;

PROCEDURE SHOW;
VAR
  C: COLUMN;
  R: ROW;
BEGIN
  WRITELN;
  FOR R := ROWS DOWNTO 1 DO
    BEGIN
      FOR C := 1 TO COLUMNS DO WRITE(' ', SIGN(BOARD[C, R]));
      WRITELN
    END;
  FOR C := 1 TO COLUMNS DO WRITE(C:2);
  WRITELN
END;

{ How many stones of the player follow one another from a place on, in a
  direction }
FUNCTION RUN(C, R, BYC, BYR: INTEGER): INTEGER;
VAR
  N: INTEGER;
  GOING: BOOLEAN;
BEGIN
  N := 0;
  REPEAT
    C := C + BYC;
    R := R + BYR;
    GOING := (C IN [1..COLUMNS]) AND (R IN [1..ROWS]);
    IF GOING THEN GOING := BOARD[C, R] = PLAYER;
    IF GOING THEN N := N + 1
  UNTIL NOT GOING;
  RUN := N
END;

FUNCTION MAKESROW(C, R: INTEGER): BOOLEAN;

  FUNCTION ENOUGH(BYC, BYR: INTEGER): BOOLEAN;
  BEGIN
    ENOUGH := RUN(C, R, BYC, BYR) + RUN(C, R, -BYC, -BYR) + 1 >= WANTED
  END;

BEGIN
  MAKESROW := ENOUGH(1, 0) OR ENOUGH(0, 1) OR ENOUGH(1, 1) OR ENOUGH(1, -1)
END;

{ Drops a stone, if there is room }
PROCEDURE DROP(C: COLUMN);
VAR
  R: INTEGER;
BEGIN
  R := 1;
  WHILE (R < ROWS) AND (BOARD[C, R] <> EMPTY) DO R := R + 1;
  IF BOARD[C, R] <> EMPTY THEN WRITELN('Column ', C, ' is full.')
  ELSE
    BEGIN
      BOARD[C, R] := PLAYER;
      STONES := STONES + 1;
      SHOW;
      WON := MAKESROW(C, R);
      IF NOT WON THEN
        IF PLAYER = X THEN PLAYER := O ELSE PLAYER := X
    END
END;

PROCEDURE MOVE;
BEGIN
  WRITE(SIGN(PLAYER), ', your column (1 to 7, Q to stop): ');
  READLN(ANSWER);
  IF LENGTH(ANSWER) <> 1 THEN ANSWER := '?';
  IF ANSWER[1] IN ['Q', 'q'] THEN DONE := TRUE
  ELSE IF ANSWER[1] IN ['1'..'7'] THEN DROP(ORD(ANSWER[1]) - ORD('0'))
  ELSE WRITELN('Type one digit.')
END;

BEGIN
  DONE := FALSE;
  REPEAT
    CLEAR;
    SHOW;
    REPEAT MOVE UNTIL DONE OR WON OR (STONES = COLUMNS * ROWS);
    IF WON THEN WRITELN(SIGN(PLAYER), ' has won with ', STONES, ' stones on the board.')
    ELSE IF NOT DONE THEN WRITELN('A draw.');
    IF NOT DONE THEN
      BEGIN
        WRITE('Again (Y or N)? ');
        READLN(ANSWER);
        IF POS('Y', ANSWER) + POS('y', ANSWER) = 0 THEN DONE := TRUE
      END
  UNTIL DONE;
  WRITELN('Goodbye.')
END.

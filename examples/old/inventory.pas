PROGRAM INVENTORY;
{ A stock in a file of records, which are found by their numbers. }
CONST
  MOST = 49;
TYPE
  ITEM = RECORD
    NAME: STRING[20];
    PIECES: INTEGER;
    CENTS: INTEGER[9]            { of all of them }
  END;
VAR
  F: FILE OF ITEM;
  REPORT: TEXT;
  COMMAND: CHAR;

PROCEDURE MAKEFILE;
VAR
  I: INTEGER;
BEGIN
  REWRITE(F, 'STOCK');
  FOR I := 0 TO MOST DO
    BEGIN
      F^.NAME := '';
      F^.PIECES := 0;
      F^.CENTS := 0;
      PUT(F)
    END;
  CLOSE(F, LOCK);
  RESET(F, 'STOCK')
END;

FUNCTION ISNUMBER(VAR N: INTEGER): BOOLEAN;
BEGIN
  WRITE('Number: ');
  READLN(N);
  ISNUMBER := (N >= 0) AND (N <= MOST);
  IF (N < 0) OR (N > MOST) THEN WRITELN('Numbers are from 0 to ', MOST, '.')
  ELSE
    BEGIN
      SEEK(F, N);
      GET(F)
    END
END;

PROCEDURE SHOW(N: INTEGER);
BEGIN
  WRITE(N:3, '  ', F^.NAME, ' ':20 - LENGTH(F^.NAME), F^.PIECES:6);
  WRITELN(F^.CENTS DIV 100:9, '.', TRUNC(F^.CENTS - F^.CENTS DIV 100 * 100) DIV 10,
    TRUNC(F^.CENTS - F^.CENTS DIV 10 * 10))
END;

PROCEDURE STORE(N: INTEGER);
BEGIN
  SEEK(F, N);
  PUT(F);
  SHOW(N)
END;

PROCEDURE NEWITEM;
VAR
  N: INTEGER;
BEGIN
  IF ISNUMBER(N) THEN
    BEGIN
      WRITE('Name: ');
      READLN(F^.NAME);
      F^.PIECES := 0;
      F^.CENTS := 0;
      STORE(N)
    END
END;

PROCEDURE MOVE(SIGN: INTEGER);
VAR
  N, PIECES, CENTS: INTEGER;
  VALUE: INTEGER[9];
BEGIN
  IF ISNUMBER(N) THEN
    IF F^.NAME = '' THEN WRITELN('There is no such item.')
    ELSE
      BEGIN
        WRITE('Pieces, and cents for one: ');
        READLN(PIECES, CENTS);
        IF (SIGN < 0) AND (PIECES > F^.PIECES) THEN WRITELN('There are only ', F^.PIECES, '.')
        ELSE
          BEGIN
            VALUE := PIECES;
            VALUE := VALUE * CENTS;
            F^.PIECES := F^.PIECES + SIGN * PIECES;
            F^.CENTS := F^.CENTS + SIGN * VALUE;
            STORE(N)
          END
      END
END;

PROCEDURE LIST;
VAR
  I: INTEGER;
BEGIN
  REWRITE(REPORT, 'REPORT.TEXT');
  I := 0;
  RESET(F);
  WHILE NOT EOF(F) DO
    BEGIN
      IF F^.NAME <> '' THEN
        BEGIN
          SHOW(I);
          WRITELN(REPORT, I, ' ', F^.NAME, ' ', F^.PIECES)
        END;
      I := I + 1;
      GET(F)
    END;
  CLOSE(REPORT, LOCK)
END;

BEGIN
  WRITELN('INVENTORY');
  {$I-} RESET(F, 'STOCK'); {$I+}
  IF IORESULT <> 0 THEN MAKEFILE;
  REPEAT
    WRITE('N(ew I(n O(ut L(ist Q(uit: ');
    READLN(COMMAND);
    CASE COMMAND OF
      'N', 'n': NEWITEM;
      'I', 'i': MOVE(1);
      'O', 'o': MOVE(-1);
      'L', 'l': LIST
    END
  UNTIL (COMMAND = 'Q') OR (COMMAND = 'q');
  CLOSE(F, LOCK)
END.

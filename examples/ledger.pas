PROGRAM LEDGER;
{ The cash box of a club, kept at a console that does not go away. A line is a
  command:

    IN 120 membership of Ann       money comes
    OUT 35 stamps                  money goes
    LIST                           all entries, with what is in the box
    FIND stamps                    those that have a text
    UNDO                           takes the last entry back
    QUIT

  Amounts are whole, from 1 to 32767, and so is what is in the box. }
TYPE
  NOTE = STRING[40];
  LINK = ^ENTRY;
  ENTRY = RECORD
    AMOUNT: INTEGER;               { below 0: it went out }
    TEXT: NOTE;
    BEFORE: LINK
  END;
VAR
  LAST: LINK;                      { the entry that was made last }
  COUNT, BOX: INTEGER;
  LINE, WORD: STRING;
  DONE: BOOLEAN;

{ The first word of LINE goes into WORD, and LINE keeps the rest }
PROCEDURE TAKEWORD;
VAR
  AT: INTEGER;
BEGIN
  WHILE POS(' ', LINE) = 1 DO DELETE(LINE, 1, 1);
  AT := POS(' ', LINE);
  IF AT = 0 THEN
    BEGIN
      WORD := LINE;
      LINE := ''
    END
  ELSE
    BEGIN
      WORD := COPY(LINE, 1, AT - 1);
      DELETE(LINE, 1, AT)
    END
END;

PROCEDURE CAPITALS(VAR S: STRING);
VAR
  I: INTEGER;
BEGIN
  FOR I := 1 TO LENGTH(S) DO
    IF S[I] IN ['a'..'z'] THEN S[I] := CHR(ORD(S[I]) - ORD('a') + ORD('A'))
END;

{ The number that WORD is, or 0 where it is none from 1 to 32767 }
FUNCTION NUMBER: INTEGER;
VAR
  I, N, DIGIT: INTEGER;
BEGIN
  N := 0;
  FOR I := 1 TO LENGTH(WORD) DO
    BEGIN
      IF NOT (WORD[I] IN ['0'..'9']) THEN
        BEGIN
          NUMBER := 0;
          EXIT(NUMBER)
        END;
      DIGIT := ORD(WORD[I]) - ORD('0');
      IF N > (MAXINT - DIGIT) DIV 10 THEN
        BEGIN
          NUMBER := 0;
          EXIT(NUMBER)
        END;
      N := 10 * N + DIGIT
    END;
  NUMBER := N
END;

PROCEDURE TELLBOX;
BEGIN
  WRITELN('In the box: ', BOX)
END;

PROCEDURE MAKE(SIGN: INTEGER);
VAR
  AMOUNT: INTEGER;
  FRESH: LINK;
BEGIN
  TAKEWORD;
  AMOUNT := NUMBER;
  IF AMOUNT = 0 THEN WRITELN('An amount is a number from 1 to 32767.')
  ELSE IF (SIGN < 0) AND (AMOUNT > BOX) THEN WRITELN('There are only ', BOX, ' in the box.')
  ELSE IF (SIGN > 0) AND (AMOUNT > MAXINT - BOX) THEN WRITELN('The box is full.')
  ELSE IF MEMAVAIL < 100 THEN WRITELN('The ledger is full.')
  ELSE
    BEGIN
      NEW(FRESH);
      FRESH^.AMOUNT := SIGN * AMOUNT;
      IF LENGTH(LINE) > 40 THEN LINE := COPY(LINE, 1, 40);
      FRESH^.TEXT := LINE;
      FRESH^.BEFORE := LAST;
      LAST := FRESH;
      COUNT := COUNT + 1;
      BOX := BOX + SIGN * AMOUNT;
      TELLBOX
    END
END;

{ Entries from the first on: the list goes from the last, so this is recursive }
PROCEDURE SHOW(E: LINK; NUMBER: INTEGER; WANTED: STRING);
BEGIN
  IF E <> NIL THEN
    BEGIN
      SHOW(E^.BEFORE, NUMBER - 1, WANTED);
      IF (WANTED = '') OR (POS(WANTED, E^.TEXT) > 0) THEN
        WRITELN(NUMBER:4, E^.AMOUNT:8, '  ', E^.TEXT)
    END
END;

PROCEDURE UNDO;
BEGIN
  IF LAST = NIL THEN WRITELN('There is no entry.')
  ELSE
    BEGIN
      WRITELN('Taken back: ', LAST^.AMOUNT, ' ', LAST^.TEXT);
      BOX := BOX - LAST^.AMOUNT;
      COUNT := COUNT - 1;
      LAST := LAST^.BEFORE;
      TELLBOX
    END
END;

BEGIN
  LAST := NIL;
  COUNT := 0;
  BOX := 0;
  DONE := FALSE;
  WRITELN('LEDGER: IN, OUT, LIST, FIND, UNDO, QUIT');
  REPEAT
    WRITE('> ');
    READLN(LINE);
    TAKEWORD;
    CAPITALS(WORD);
    IF WORD = 'IN' THEN MAKE(1)
    ELSE IF WORD = 'OUT' THEN MAKE(-1)
    ELSE IF WORD = 'LIST' THEN
      BEGIN
        SHOW(LAST, COUNT, '');
        TELLBOX
      END
    ELSE IF WORD = 'FIND' THEN SHOW(LAST, COUNT, LINE)
    ELSE IF WORD = 'UNDO' THEN UNDO
    ELSE IF (WORD = 'QUIT') OR EOF THEN DONE := TRUE
    ELSE IF WORD <> '' THEN WRITELN('I know IN, OUT, LIST, FIND, UNDO and QUIT.')
  UNTIL DONE;
  WRITELN('Closed with ', COUNT, ' entries and ', BOX, ' in the box.')
END.

PROGRAM SORTER;
{ Reads lines of numbers up to an empty line, and prints the numbers in
  ascending order, one a line, each with its place among those that were read.
  Numbers go from -32768 to 32767; one outside is told when its line is read,
  by ? and its place, and is not sorted. Unit 2 is the console without echo. A
  line ends in LF (10), as terminals have it; the p-System had CR (13). }
CONST
  CONSOLE = 1;
  SYSTERM = 2;
  PRINTER = 6;
  LF = 10;
  MOST = 50;                   { numbers, those outside among them }
TYPE
  ITEM = RECORD VALUE: INTEGER; PLACE: 1..MOST END;
VAR
  ITEMS: ARRAY[1..MOST] OF ITEM;
  LINE: PACKED ARRAY[0..79] OF CHAR;
  LENGTH: INTEGER;
  COUNT: INTEGER;              { of ITEMS }
  SEEN: INTEGER;               { numbers, those outside among them }
  I: INTEGER;

PROCEDURE PUT(C: CHAR);
BEGIN
  UNITWRITE(CONSOLE, C, 1)
END;

PROCEDURE PRINT(N: INTEGER);   { -32768 too, which has no opposite }
BEGIN
  IF N DIV 10 <> 0 THEN PRINT(N DIV 10)
  ELSE IF N < 0 THEN PUT('-');
  PUT(CHR(ABS(N MOD 10) + ORD('0')))
END;

PROCEDURE READLINE;            { its LF is counted }
BEGIN
  LENGTH := 0;
  REPEAT
    UNITREAD(SYSTERM, LINE[LENGTH], 1);
    LENGTH := LENGTH + 1
  UNTIL LINE[LENGTH - 1] = CHR(LF)
END;

FUNCTION ISDIGIT(C: CHAR): BOOLEAN;
BEGIN
  ISDIGIT := (C >= '0') AND (C <= '9')
END;

PROCEDURE INSERT(FRESH: ITEM); { behind all items that are not greater }
VAR
  I: INTEGER;
  GOING: BOOLEAN;
BEGIN
  COUNT := COUNT + 1;
  I := COUNT;
  GOING := I > 1;
  WHILE GOING DO
    IF ITEMS[I - 1].VALUE > FRESH.VALUE THEN
      BEGIN
        ITEMS[I] := ITEMS[I - 1];
        I := I - 1;
        GOING := I > 1
      END
    ELSE GOING := FALSE;
  ITEMS[I] := FRESH
END;

PROCEDURE TAKELINE;            { takes the numbers of a line }
VAR
  AT: INTEGER;
  NEGATIVE: BOOLEAN;
  FRESH: ITEM;
  FITS: BOOLEAN;
  DIGIT: INTEGER;
BEGIN
  AT := 0;
  WHILE AT < LENGTH DO
    BEGIN
      NEGATIVE := LINE[AT] = '-';
      IF NEGATIVE THEN AT := AT + 1;
      IF ISDIGIT(LINE[AT]) THEN
        BEGIN
          FRESH.VALUE := 0;    { below 0 as far as the sign, since 32768 does not fit }
          FITS := TRUE;
          WHILE ISDIGIT(LINE[AT]) DO
            BEGIN
              DIGIT := ORD(LINE[AT]) - ORD('0');
              IF FRESH.VALUE < (DIGIT - 32767 - 1) DIV 10 THEN FITS := FALSE
              ELSE FRESH.VALUE := FRESH.VALUE * 10 - DIGIT;
              AT := AT + 1
            END;
          IF NOT NEGATIVE THEN
            IF FRESH.VALUE < -32767 THEN FITS := FALSE
            ELSE FRESH.VALUE := -FRESH.VALUE;
          SEEN := SEEN + 1;
          FRESH.PLACE := SEEN;
          IF FITS THEN INSERT(FRESH)
          ELSE
            BEGIN
              PUT('?'); PUT(' '); PRINT(SEEN); PUT(CHR(LF))
            END
        END
      ELSE IF NOT NEGATIVE THEN AT := AT + 1
    END
END;

BEGIN
  COUNT := 0;
  SEEN := 0;
  READLINE;
  WHILE LENGTH <> 1 DO
    BEGIN
      TAKELINE;
      READLINE
    END;
  FOR I := 1 TO COUNT DO
    BEGIN
      PRINT(ITEMS[I].VALUE);
      PUT(' ');
      PRINT(ITEMS[I].PLACE);
      PUT(CHR(LF))
    END;
  {$I-} UNITWRITE(PRINTER, LINE, 1); {$I+}
  IF IORESULT <> 0 THEN
    BEGIN
      PUT('N'); PUT('O'); PUT(' ');
      PUT('P'); PUT('R'); PUT('I'); PUT('N'); PUT('T'); PUT('E'); PUT('R');
      PUT(CHR(LF))
    END
END.

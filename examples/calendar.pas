PROGRAM CALENDAR;
{ Prints each Friday the 13th from 1980 to 1985, one a line, as 13.6.80. A
  line ends in LF (10), as terminals have it; the p-System had CR (13). }
CONST
  CONSOLE = 1;
  LF = 10;
  FRIDAY = 5;
  LAST = 85;
VAR
  M, WEEKDAY: INTEGER;         { of the week, in which Sunday is 0 }
  TODAY: PACKED RECORD         { a word: 4, 5 and 7 bits }
    MONTH: 0..12;
    DAY: 0..31;
    YEAR: 0..100
  END;
  DAYS: PACKED ARRAY[1..12] OF 0..31;    { of each month, three in a word }

PROCEDURE PUT(C: CHAR);
BEGIN
  UNITWRITE(CONSOLE, C, 1)
END;

PROCEDURE PRINT(N: INTEGER);   { -32768 too, which has no opposite }
BEGIN
  IF N DIV 10 <> 0 THEN PRINT(N DIV 10)
  ELSE IF N < 0 THEN PUT('-');
  PUT(CHR(ABS(N MOD 10) + ORD('0')))
END;

PROCEDURE SHOW;                { prints TODAY }
BEGIN
  PRINT(TODAY.DAY);
  PUT('.');
  PRINT(TODAY.MONTH);
  PUT('.');
  PRINT(TODAY.YEAR);
  PUT(CHR(LF))
END;

PROCEDURE TURN;                { to the first day of the next month }
BEGIN
  TODAY.DAY := 1;
  IF TODAY.MONTH < 12 THEN TODAY.MONTH := TODAY.MONTH + 1
  ELSE
    BEGIN
      TODAY.MONTH := 1;
      TODAY.YEAR := TODAY.YEAR + 1
    END;
  IF TODAY.YEAR MOD 4 = 0 THEN DAYS[2] := 29
  ELSE DAYS[2] := 28
END;

BEGIN
  FOR M := 1 TO 12 DO
    DAYS[M] := 31;
  DAYS[2] := 29;
  DAYS[4] := 30;
  DAYS[6] := 30;
  DAYS[9] := 30;
  DAYS[11] := 30;
  TODAY.YEAR := 80;
  TODAY.MONTH := 1;
  TODAY.DAY := 1;
  WEEKDAY := 2;                { the first of January 1980 was a Tuesday }
  WHILE TODAY.YEAR <= LAST DO
    BEGIN
      IF (TODAY.DAY = 13) AND (WEEKDAY = FRIDAY) THEN SHOW;
      IF TODAY.DAY < DAYS[TODAY.MONTH] THEN TODAY.DAY := TODAY.DAY + 1
      ELSE TURN;
      WEEKDAY := (WEEKDAY + 1) MOD 7
    END
END.

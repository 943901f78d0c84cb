{ READ, READLN, EOLN and EOF. File 1 is INPUT, file 2 is KEYBOARD.

  A key is read from unit 2, which shows nothing; of INPUT it is then written
  to the console here. So a line's end is shown as WRITELN writes it, and a
  backspace takes a character off the screen. No key is read before a program
  asks for it, so EOLN is true only once the line's end itself has been read. }
{$R-}
VAR
  WINDOW: ARRAY[1..MOSTFILES] OF CHAR;   { what was read last; a line's end is ' ' }
  ISFULL,                                { it has not been taken }
  ISEOLN, ISEOF: ARRAY[1..MOSTFILES] OF BOOLEAN;
  KEYSREAD: INTEGER;                     { a sum of all keys, for RANDOMIZE }

PROCEDURE NEXTKEY(F: INTEGER);
VAR
  C: CHAR;
BEGIN
  IF HASFILES = 1 THEN
    IF F > 2 THEN
      BEGIN
        NEXTBYTE(F);
        EXIT(NEXTKEY)
      END;
  IF NOT ISEOF[F] THEN
    BEGIN
      UNITREAD(2, C, 1);
      IF MIXED = 1 THEN KEYSREAD := 31 * KEYSREAD + ORD(C);
      ISEOF[F] := C = CHR(3);            { Ctrl-C }
      ISEOLN[F] := (C = CHR(10)) OR (C = CHR(13)) OR ISEOF[F];
      IF F = ECHOED THEN                 { which is 0 where nothing is to be shown }
        IF ISEOF[F] THEN
        ELSE IF ISEOLN[F] THEN PUTCHAR(CHR(LINEEND))
        ELSE IF (C <> CHR(8)) AND (C <> CHR(127)) THEN PUTCHAR(C);
      IF ISEOLN[F] THEN C := ' ';
      WINDOW[F] := C
    END;
  ISFULL[F] := TRUE
END;

{ Whether a backspace was read; a character goes from the screen if there is one }
FUNCTION ISBACK(F, SHOWN: INTEGER): BOOLEAN;
VAR
  B: BOOLEAN;
BEGIN
  B := (WINDOW[F] = CHR(8)) OR (WINDOW[F] = CHR(127));
  IF B AND (F = ECHOED) AND (SHOWN > 0) THEN
    BEGIN
      PUTCHAR(CHR(8)); PUTCHAR(' '); PUTCHAR(CHR(8))
    END;
  ISBACK := B
END;

PROCEDURE RESETFILE(F: INTEGER);         { what has been read is as if it had not }
BEGIN
  IF (F = 1) OR (F = 2) THEN
    BEGIN
      ISFULL[F] := FALSE;
      ISEOLN[F] := FALSE;
      ISEOF[F] := FALSE
    END
END;

FUNCTION OPENED(F: INTEGER): INTEGER;    { F, if it is the number of a file }
VAR
  NUMBER: 1..MOSTFILES;
BEGIN
  {$R+} NUMBER := F; {$R-}               { error 1: the file is not open }
  OPENED := F
END;

FUNCTION ATEOLN(F: INTEGER): BOOLEAN;
BEGIN
  IF HASFILES = 1 THEN F := PEEKED(F);
  ATEOLN := ISEOLN[F]
END;

FUNCTION ATEOF(F: INTEGER): BOOLEAN;
BEGIN
  IF HASFILES = 1 THEN F := PEEKED(F);
  ATEOF := ISEOF[F]
END;

PROCEDURE ENDLINE(F: INTEGER);           { goes behind the line's end }
BEGIN
  IF HASFILES = 1 THEN F := PEEKED(F);
  WHILE NOT ISEOLN[F] DO NEXTKEY(F);
  ISFULL[F] := FALSE;
  ISEOLN[F] := ISEOF[F]
END;

FUNCTION READCHAR(F: INTEGER): CHAR;
BEGIN
  IF NOT ISFULL[F] THEN NEXTKEY(F);
  READCHAR := WINDOW[F];
  ISFULL[F] := FALSE
END;

{ Blanks and ends of lines are passed over. The character behind the digits is
  read too, and stays. 0 where no number stands }
FUNCTION READINT(F: INTEGER): INTEGER;
VAR
  N, COUNT: INTEGER;
  NEGATIVE, GOING: BOOLEAN;
BEGIN
  IF NOT ISFULL[F] THEN NEXTKEY(F);
  WHILE ((WINDOW[F] = ' ') OR ISBACK(F, 0)) AND NOT ISEOF[F] DO NEXTKEY(F);
  NEGATIVE := WINDOW[F] = '-';
  IF NEGATIVE OR (WINDOW[F] = '+') THEN NEXTKEY(F);
  N := 0;
  COUNT := 0;
  REPEAT
    GOING := TRUE;
    IF ISBACK(F, COUNT) THEN
      BEGIN
        N := N DIV 10;
        IF COUNT > 0 THEN COUNT := COUNT - 1
      END
    ELSE IF (WINDOW[F] >= '0') AND (WINDOW[F] <= '9') THEN
      BEGIN
        N := 10 * N + ORD(WINDOW[F]) - ORD('0');
        COUNT := COUNT + 1
      END
    ELSE GOING := FALSE;
    IF GOING THEN NEXTKEY(F)
  UNTIL NOT GOING;
  IF NEGATIVE THEN N := -N;
  READINT := N
END;

{ The rest of the line, of which M characters have room }
PROCEDURE READSTR(F: INTEGER; VAR S: BYTES; M: INTEGER);
VAR
  COUNT: INTEGER;
BEGIN
  COUNT := 0;
  IF NOT ISFULL[F] THEN NEXTKEY(F);
  WHILE NOT ISEOLN[F] DO
    BEGIN
      IF ISBACK(F, COUNT) THEN
        BEGIN
          IF COUNT > 0 THEN COUNT := COUNT - 1
        END
      ELSE
        BEGIN
          COUNT := COUNT + 1;
          IF COUNT <= M THEN S[COUNT] := WINDOW[F]
        END;
      NEXTKEY(F)
    END;
  IF COUNT > M THEN COUNT := M;
  S[0] := CHR(COUNT)
END;

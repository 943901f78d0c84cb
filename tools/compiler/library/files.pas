{ Files in memory. The heap of the program has them at its upper end, in blocks
  of 62 bytes with a pointer each, so that they are saved and repeated with the
  program. A file variable has the number of an open file, or 0: 1 is the
  console, 2 the keyboard, and from 3 on those of memory. What goes wrong is told
  in IOCODE, by the manual's numbers for IORESULT. }
{$R-}
CONST
  BLOCKWORDS = 32;
  BLOCKBYTES = 62;
  NOROOM = 8; NOFILE = 10; ISOPEN = 12; NOTOPEN = 13;

TYPE
  BLOCKPOINTER = ^BLOCK;
  FILENAME = STRING[15];
  BLOCK = RECORD
    NEXT: BLOCKPOINTER;          { of an entry the next entry }
    CASE INTEGER OF
      0: (W: ARRAY[1..31] OF INTEGER);
      1: (B: PACKED ARRAY[0..61] OF CHAR);
      2: (NAME: FILENAME; SIZE, USERS: INTEGER; ISNEW: BOOLEAN; FIRST: BLOCKPOINTER)
  END;

VAR
  IOCODE,
  TOPUSED: INTEGER;              { words of the heap that are blocks }
  FREEBLOCKS, DIRECTORY: BLOCKPOINTER;
  ENTRYOF, BLOCKAT: ARRAY[1..MOSTFILES] OF BLOCKPOINTER;  { the file; a block of it }
  BYTEAT, BLOCKSTART: ARRAY[1..MOSTFILES] OF INTEGER;  { the next byte; the first of the block }
  OUTFILE: INTEGER;              { that is written now; 0 for the console }
  TITLE: FILENAME;               { of the file that was opened last }

FUNCTION FRESHBLOCK: BLOCKPOINTER;       { of zeros; NIL if there is no room }
VAR
  I: INTEGER;
  P: BLOCKPOINTER;
  C: RECORD CASE BOOLEAN OF TRUE: (P: BLOCKPOINTER); FALSE: (N: INTEGER) END;
BEGIN
  P := FREEBLOCKS;
  IF P <> NIL THEN FREEBLOCKS := P^.NEXT
  ELSE IF HEAPWORDS - USED - TOPUSED >= BLOCKWORDS THEN
    BEGIN
      TOPUSED := TOPUSED + BLOCKWORDS;
      C.N := ADDRESS(ROOM) + 2 * (HEAPWORDS - TOPUSED);
      P := C.P
    END
  ELSE IOCODE := NOROOM;
  IF P <> NIL THEN
    BEGIN
      P^.NEXT := NIL;
      FOR I := 1 TO 31 DO P^.W[I] := 0
    END;
  FRESHBLOCK := P
END;

PROCEDURE GIVEBLOCKS(P: BLOCKPOINTER);   { all of a chain }
VAR
  Q: BLOCKPOINTER;
BEGIN
  WHILE P <> NIL DO
    BEGIN
      Q := P^.NEXT;
      P^.NEXT := FREEBLOCKS;
      FREEBLOCKS := P;
      P := Q
    END
END;

{ The block with the next byte, which is made if it ISMADE and is not there; NIL if it is not }
FUNCTION BLOCKOF(F: INTEGER; ISMADE: BOOLEAN): BLOCKPOINTER;
VAR
  P: BLOCKPOINTER;
BEGIN
  P := BLOCKAT[F];
  IF BYTEAT[F] < BLOCKSTART[F] THEN
    BEGIN
      P := ENTRYOF[F]^.FIRST;
      BLOCKSTART[F] := 0
    END;
  WHILE (P <> NIL) AND (BYTEAT[F] - BLOCKSTART[F] >= BLOCKBYTES) DO
    BEGIN
      BLOCKAT[F] := P;
      IF (P^.NEXT = NIL) AND ISMADE THEN P^.NEXT := FRESHBLOCK;
      P := P^.NEXT;
      IF P <> NIL THEN BLOCKSTART[F] := BLOCKSTART[F] + BLOCKBYTES
    END;
  IF P <> NIL THEN BLOCKAT[F] := P;
  BLOCKOF := P
END;

PROCEDURE REWIND(F: INTEGER);
BEGIN
  BYTEAT[F] := 0;
  BLOCKSTART[F] := 0;
  BLOCKAT[F] := ENTRYOF[F]^.FIRST;
  ISFULL[F] := FALSE;
  ISEOLN[F] := FALSE;
  ISEOF[F] := FALSE
END;

PROCEDURE NEXTBYTE(F: INTEGER);          { what NEXTKEY is for the console }
VAR
  C: CHAR;
  P: BLOCKPOINTER;
BEGIN
  IF BYTEAT[F] >= ENTRYOF[F]^.SIZE THEN
    BEGIN
      ISEOF[F] := TRUE;
      C := CHR(10)
    END
  ELSE
    BEGIN
      P := BLOCKOF(F, FALSE);
      C := P^.B[BYTEAT[F] - BLOCKSTART[F]];
      BYTEAT[F] := BYTEAT[F] + 1
    END;
  ISEOLN[F] := (C = CHR(10)) OR (C = CHR(13));
  IF ISEOLN[F] THEN C := ' ';
  WINDOW[F] := C;
  ISFULL[F] := TRUE
END;

{ Looks at the next character of a text in memory, without taking it }
FUNCTION PEEKED(F: INTEGER): INTEGER;
BEGIN
  IF F > 2 THEN
    IF NOT ISFULL[F] THEN NEXTBYTE(F);
  PEEKED := F
END;

PROCEDURE GETTEXT(F: INTEGER);
BEGIN
  IF F < 3 THEN NEXTKEY(F)
  ELSE IF ISFULL[F] THEN ISFULL[F] := FALSE
  ELSE
    BEGIN
      NEXTBYTE(F);
      ISFULL[F] := FALSE
    END
END;

PROCEDURE PUTBYTE(C: CHAR);              { to OUTFILE }
VAR
  P: BLOCKPOINTER;
BEGIN
  P := BLOCKOF(OUTFILE, TRUE);
  IF P <> NIL THEN
    BEGIN
      P^.B[BYTEAT[OUTFILE] - BLOCKSTART[OUTFILE]] := C;
      BYTEAT[OUTFILE] := BYTEAT[OUTFILE] + 1;
      WITH ENTRYOF[OUTFILE]^ DO
        IF BYTEAT[OUTFILE] > SIZE THEN SIZE := BYTEAT[OUTFILE];
      ISEOF[OUTFILE] := TRUE
    END
END;

PROCEDURE PUTBYTES(VAR T: BYTES; AT, N: INTEGER);  { to OUTFILE, or to the console }
VAR
  I: INTEGER;
BEGIN
  IF OUTFILE < 3 THEN UNITWRITE(1, T[AT], N)
  ELSE FOR I := AT TO AT + N - 1 DO PUTBYTE(T[I])
END;

PROCEDURE PUTTEXTWINDOW(F: INTEGER);     { PUT of a text }
BEGIN
  OUTFILE := F;
  PUTCHAR(WINDOW[F]);
  OUTFILE := 0
END;

PROCEDURE PAGEFILE(F: INTEGER);
BEGIN
  IF F < 3 THEN CLEARSCREEN
  ELSE
    BEGIN
      OUTFILE := F;
      PUTCHAR(CHR(12));
      OUTFILE := 0
    END
END;

{ N words between W and the file, from its next byte on; how many it was }
FUNCTION TRANSFER(F: INTEGER; VAR W: WORDS; N: INTEGER; ISPUT: BOOLEAN): INTEGER;
VAR
  I, J, K, M: INTEGER;
  P: BLOCKPOINTER;
BEGIN
  I := 0;
  REPEAT
    P := BLOCKOF(F, ISPUT);
    IF P <> NIL THEN
      BEGIN
        K := (BYTEAT[F] - BLOCKSTART[F]) DIV 2 + 1;
        M := BLOCKWORDS - K;
        IF M > N - I THEN M := N - I;
        IF ISPUT THEN FOR J := 0 TO M - 1 DO P^.W[K + J] := W[I + J]
        ELSE FOR J := 0 TO M - 1 DO W[I + J] := P^.W[K + J];
        BYTEAT[F] := BYTEAT[F] + M + M;
        I := I + M
      END
  UNTIL (P = NIL) OR (I >= N);
  WITH ENTRYOF[F]^ DO
    IF BYTEAT[F] > SIZE THEN SIZE := BYTEAT[F];
  TRANSFER := I
END;

PROCEDURE GETRECORD(F: INTEGER; VAR W: WORDS; N: INTEGER);
BEGIN
  IOCODE := 0;
  IF F < 3 THEN IOCODE := NOTOPEN
  ELSE
    BEGIN
      ISEOF[F] := BYTEAT[F] > ENTRYOF[F]^.SIZE - N - N;
      IF NOT ISEOF[F] THEN N := TRANSFER(F, W, N, FALSE)
    END
END;

PROCEDURE PUTRECORD(F: INTEGER; VAR W: WORDS; N: INTEGER);
VAR
  AT: INTEGER;
BEGIN
  IOCODE := 0;
  IF F < 3 THEN IOCODE := NOTOPEN
  ELSE IF BYTEAT[F] > MAXINT - 1 - N - N THEN IOCODE := NOROOM
  ELSE
    BEGIN
      AT := ENTRYOF[F]^.SIZE;
      IF TRANSFER(F, W, N, TRUE) < N THEN ENTRYOF[F]^.SIZE := AT;
      ISEOF[F] := BYTEAT[F] >= ENTRYOF[F]^.SIZE
    END
END;

PROCEDURE SEEKRECORD(F, NUMBER, N: INTEGER);
BEGIN
  IOCODE := 0;
  IF F < 3 THEN IOCODE := NOTOPEN
  ELSE
    BEGIN
      ISEOF[F] := FALSE;
      IF (NUMBER < 0) OR (NUMBER > 16382 DIV N) THEN BYTEAT[F] := MAXINT - 1
      ELSE BYTEAT[F] := 2 * N * NUMBER
    END
END;

{ Blocks of 512 bytes, from the block FROM on if it is not below 0; how many it was. What lacks to
  a whole block is 0 }
FUNCTION BLOCKS(F: INTEGER; VAR D: BYTES; AT, COUNT, FROM: INTEGER; ISPUT: BOOLEAN): INTEGER;
VAR
  I, K, N: INTEGER;
  W: ARRAY[0..255] OF INTEGER;
  ISOVER: BOOLEAN;
BEGIN
  N := 0;
  IF FROM >= 0 THEN SEEKRECORD(F, FROM, 256);
  IOCODE := 0;
  IF F < 3 THEN IOCODE := NOTOPEN
  ELSE
    REPEAT
      ISOVER := (N >= COUNT) OR NOT ISPUT AND (BYTEAT[F] >= ENTRYOF[F]^.SIZE);
      IF NOT ISOVER THEN
        BEGIN
          IF ISPUT THEN
            BEGIN
              MOVELEFT(D, AT, W, 0, 512);
              PUTRECORD(F, W, 256);
              ISOVER := IOCODE <> 0
            END
          ELSE
            BEGIN
              FOR I := 0 TO 255 DO W[I] := 0;
              K := ENTRYOF[F]^.SIZE;
              I := (K - BYTEAT[F] + 1) DIV 2;
              IF I > 256 THEN I := 256;
              I := TRANSFER(F, W, I, FALSE);
              ENTRYOF[F]^.SIZE := K;
              MOVELEFT(W, 0, D, AT, 512)
            END;
          IF NOT ISOVER THEN
            BEGIN
              N := N + 1;
              AT := AT + 512
            END
        END
    UNTIL ISOVER;
  IF F > 2 THEN ISEOF[F] := BYTEAT[F] >= ENTRYOF[F]^.SIZE;
  BLOCKS := N
END;

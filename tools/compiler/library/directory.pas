{ The names of files in memory, and how they are opened and closed. A file that
  REWRITE made is in the directory once CLOSE has locked it, and takes the place
  of one with its name. A name has no volume: all are of one. }
{$R-}
VAR
  HOSTFILE: TEXT;                { a file that the program begins with }

{ TITLE becomes a file's name in capitals, without its volume and without a size in brackets }
PROCEDURE ENTITLE(VAR S: BYTES);
VAR
  I, N: INTEGER;
  C: CHAR;
BEGIN
  N := 0;
  I := 1;
  WHILE I <= ORD(S[0]) DO
    BEGIN
      C := S[I];
      IF (C >= 'a') AND (C <= 'z') THEN C := CHR(ORD(C) - 32);
      IF C = '[' THEN I := ORD(S[0])
      ELSE IF (C = ':') AND (I < ORD(S[0])) OR (C = '*') THEN N := 0
      ELSE IF (C <> ' ') AND (N < 15) THEN
        BEGIN
          N := N + 1;
          TITLE[N] := C
        END;
      I := I + 1
    END;
  TITLE[0] := CHR(N)
END;

{ Whether the file is new or of the directory that has the name TITLE, NIL if there is none }
FUNCTION ENTRYNAMED: BLOCKPOINTER;
VAR
  P: BLOCKPOINTER;
  ISOVER: BOOLEAN;
BEGIN
  P := DIRECTORY;
  REPEAT
    ISOVER := P = NIL;
    IF NOT ISOVER THEN ISOVER := P^.NAME = TITLE;
    IF NOT ISOVER THEN P := P^.NEXT
  UNTIL ISOVER;
  ENTRYNAMED := P
END;

FUNCTION FRESHENTRY: BLOCKPOINTER;       { an empty file; NIL if there is no room }
VAR
  P: BLOCKPOINTER;
BEGIN
  P := FRESHBLOCK;
  IF P <> NIL THEN
    BEGIN
      P^.NAME := TITLE;
      P^.ISNEW := TRUE;
      P^.FIRST := FRESHBLOCK;
      IF P^.FIRST = NIL THEN
        BEGIN
          GIVEBLOCKS(P);
          P := NIL
        END
    END;
  FRESHENTRY := P
END;

{ The number of a file of memory that is opened: REWRITE if it ISFRESH, RESET if not; 0 if that
  cannot be done }
FUNCTION OPENENTRY(ISFRESH: BOOLEAN): INTEGER;
VAR
  F: INTEGER;
  P: BLOCKPOINTER;
BEGIN
  F := 3;
  WHILE (F < MOSTFILES) AND (ENTRYOF[F] <> NIL) DO F := F + 1;
  P := NIL;
  IF ENTRYOF[F] <> NIL THEN IOCODE := NOROOM
  ELSE IF ISFRESH THEN P := FRESHENTRY
  ELSE
    BEGIN
      P := ENTRYNAMED;
      IF P = NIL THEN IOCODE := NOFILE
    END;
  OPENENTRY := 0;
  IF P <> NIL THEN
    BEGIN
      P^.USERS := P^.USERS + 1;
      ENTRYOF[F] := P;
      REWIND(F);
      ISEOF[F] := ISFRESH;
      OPENENTRY := F
    END
END;

{ REWRITE and RESET with a name: the number of the file, or 0. OLD is what the variable has }
FUNCTION OPENTITLE(OLD: INTEGER; VAR S: BYTES; ISFRESH: BOOLEAN): INTEGER;
BEGIN
  IOCODE := 0;
  ENTITLE(S);
  IF OLD > 2 THEN
    BEGIN
      IOCODE := ISOPEN;
      OPENTITLE := OLD
    END
  ELSE IF (TITLE = 'SYSTERM:') OR (TITLE = '#2:') THEN OPENTITLE := 2
  ELSE IF (TITLE = 'CONSOLE:') OR (TITLE = 'PRINTER:') OR (TITLE = 'REMOUT:') OR (TITLE = '#1:')
    OR (TITLE = '#6:') OR (TITLE = '#8:') THEN OPENTITLE := 1
  ELSE OPENTITLE := OPENENTRY(ISFRESH)
END;

{ REWRITE and RESET without one }
FUNCTION OPENAGAIN(F: INTEGER; ISFRESH: BOOLEAN): INTEGER;
BEGIN
  IOCODE := 0;
  IF F = 0 THEN
    BEGIN
      TITLE := '';
      IF ISFRESH THEN F := OPENENTRY(TRUE) ELSE IOCODE := NOTOPEN
    END
  ELSE IF F < 3 THEN RESETFILE(F)
  ELSE
    BEGIN
      IF ISFRESH THEN
        WITH ENTRYOF[F]^ DO
          BEGIN
            GIVEBLOCKS(FIRST^.NEXT);
            FIRST^.NEXT := NIL;
            SIZE := 0
          END;
      REWIND(F);
      ISEOF[F] := ISFRESH
    END;
  OPENAGAIN := F
END;

PROCEDURE UNLINK(P: BLOCKPOINTER);       { out of the directory }
VAR
  Q: BLOCKPOINTER;
BEGIN
  IF DIRECTORY = P THEN DIRECTORY := P^.NEXT
  ELSE
    BEGIN
      Q := DIRECTORY;
      WHILE Q^.NEXT <> P DO Q := Q^.NEXT;
      Q^.NEXT := P^.NEXT
    END;
  P^.NEXT := NIL;
  P^.ISNEW := TRUE
END;

PROCEDURE DROPENTRY(P: BLOCKPOINTER);    { a file that is not in the directory, if nobody uses it }
BEGIN
  IF P^.USERS = 0 THEN
    BEGIN
      GIVEBLOCKS(P^.FIRST);
      GIVEBLOCKS(P)
    END
END;

{ A line of a file of records has 32 bytes in hexadecimal }
PROCEDURE SHOWENTRY(F: INTEGER; ISTEXT: BOOLEAN);
VAR
  I, N: INTEGER;
  C: CHAR;
  P: BLOCKPOINTER;
BEGIN
  WRITE('[file ');
  WRITESTRING(TITLE, 0);
  WRITE(' ');
  N := ENTRYOF[F]^.SIZE;
  WRITEINT(N, 0);
  IF ISTEXT THEN WRITELN(' bytes]') ELSE WRITELN(' bytes in hexadecimal]');
  REWIND(F);
  FOR I := 1 TO N DO
    BEGIN
      P := BLOCKOF(F, FALSE);
      C := P^.B[BYTEAT[F] - BLOCKSTART[F]];
      BYTEAT[F] := BYTEAT[F] + 1;
      IF ISTEXT THEN PUTCHAR(C)
      ELSE
        BEGIN
          PUTCHAR(HEXADECIMAL(ORD(C) DIV 16));
          PUTCHAR(HEXADECIMAL(ORD(C) MOD 16));
          IF I MOD 32 = 0 THEN WRITELN
        END
    END;
  WRITELN;
  WRITELN(']file')
END;

FUNCTION HEXADECIMAL(N: INTEGER): CHAR;
BEGIN
  IF N < 10 THEN HEXADECIMAL := CHR(N + 48) ELSE HEXADECIMAL := CHR(N + 55)
END;

{ HOW is 0 for NORMAL, 1 for LOCK, 2 for PURGE, 3 for CRUNCH }
PROCEDURE CLOSEFILE(F, HOW: INTEGER; ISTEXT: BOOLEAN);
VAR
  P, OLD: BLOCKPOINTER;
BEGIN
  IOCODE := 0;
  IF F > 2 THEN
    BEGIN
      P := ENTRYOF[F];
      IF HOW = 3 THEN
        BEGIN
          P^.SIZE := BYTEAT[F];
          HOW := 1
        END;
      TITLE := P^.NAME;
      IF P^.ISNEW AND (HOW = 1) AND (LENGTH(TITLE) > 0) THEN
        BEGIN
          OLD := ENTRYNAMED;
          IF OLD <> NIL THEN
            BEGIN
              UNLINK(OLD);
              DROPENTRY(OLD)
            END;
          P^.NEXT := DIRECTORY;
          DIRECTORY := P;
          P^.ISNEW := FALSE
        END
      ELSE IF (HOW = 2) AND NOT P^.ISNEW THEN UNLINK(P);
      IF ISSHOWN = 1 THEN
        IF HOW = 1 THEN SHOWENTRY(F, ISTEXT);
      P^.USERS := P^.USERS - 1;
      ENTRYOF[F] := NIL;
      IF P^.ISNEW THEN DROPENTRY(P)
    END
END;

{ Ends the program, with words, if the last call went wrong }
PROCEDURE CHECKIO;
VAR
  C: CHAR;
BEGIN
  IF IOCODE <> 0 THEN
    BEGIN
      IF IOCODE = NOFILE THEN WRITE('there is no file ')
      ELSE IF IOCODE = NOROOM THEN WRITE('there is no room for the file ')
      ELSE IF IOCODE = ISOPEN THEN WRITE('a file is open already, and cannot be opened as ')
      ELSE WRITE('a file is not open; the last one was ');
      WRITESTRING(TITLE, 0);
      WRITELN;
      UNITWRITE(9, C, 1)                 { error 10: the line above says why }
    END
END;

FUNCTION IOOUTCOME(MACHINES: INTEGER): INTEGER;  { IORESULT }
BEGIN
  IOOUTCOME := IOCODE;
  IF IOCODE = 0 THEN IOOUTCOME := MACHINES
END;

FUNCTION FILEEOF(F: INTEGER): BOOLEAN;   { a file of records that is closed is at its end }
BEGIN
  FILEEOF := TRUE;
  IF F > 2 THEN FILEEOF := ISEOF[F]
END;

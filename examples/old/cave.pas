PROGRAM CAVE;
{ A small game: bring the gem out of the cave. Its rooms are a unit, and the
  game can be saved in a file and taken up again. }
USES APPLESTUFF, CAVEROOMS;
VAR
  F: FILE OF STATE;
  COMMAND: STRING;
  ISOVER: BOOLEAN;

PROCEDURE SAVE;
BEGIN
  REWRITE(F, 'SAVED');
  F^ := NOW;
  PUT(F);
  CLOSE(F, LOCK);
  WRITELN('Saved.')
END;

PROCEDURE RESTORE;
BEGIN
  {$I-} RESET(F, 'SAVED'); {$I+}
  IF IORESULT <> 0 THEN WRITELN('Nothing is saved.')
  ELSE
    BEGIN
      NOW := F^;
      CLOSE(F);
      DESCRIBE
    END
END;

PROCEDURE FLY;                   { the bat goes anywhere, by chance }
BEGIN
  NOW.BAT := RANDOM MOD ROOMS + 1;
  IF (NOW.BAT = NOW.ROOM) AND NOW.HASGEM AND (NOW.ROOM <> 1) THEN
    BEGIN
      WRITELN('The bat snatches your gem, and flies off.');
      NOW.HASGEM := FALSE
    END
END;

PROCEDURE GO(DIRECTION: CHAR);
BEGIN
  IF CANGO(DIRECTION) THEN
    BEGIN
      NOW.MOVES := NOW.MOVES + 1;
      FLY;
      DESCRIBE;
      ISOVER := (NOW.ROOM = 1) AND NOW.HASGEM
    END
  ELSE WRITELN('There is no way.')
END;

PROCEDURE TAKE;
BEGIN
  IF (NOW.ROOM = 5) AND NOT NOW.HASGEM THEN
    BEGIN
      NOW.HASGEM := TRUE;
      WRITELN('Taken.')
    END
  ELSE WRITELN('There is nothing to take.')
END;

BEGIN
  WRITELN('CAVE: N, S, E, W, U, D, TAKE, SAVE, RESTORE, QUIT');
  ISOVER := FALSE;
  DESCRIBE;
  REPEAT
    WRITE('> ');
    READLN(COMMAND);
    IF COMMAND = 'TAKE' THEN TAKE
    ELSE IF COMMAND = 'SAVE' THEN SAVE
    ELSE IF COMMAND = 'RESTORE' THEN RESTORE
    ELSE IF LENGTH(COMMAND) = 1 THEN GO(COMMAND[1])
    ELSE IF COMMAND <> 'QUIT' THEN WRITELN('What?')
  UNTIL ISOVER OR (COMMAND = 'QUIT');
  IF ISOVER THEN WRITELN('You have the gem, after ', NOW.MOVES, ' moves.')
END.

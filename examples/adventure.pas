PROGRAM ADVENTURE;
{ A small adventure: find the crown, and bring it to the gate. Commands have one
  or two words: N, E, S, W, LOOK, TAKE thing, DROP thing, LIGHT lamp, INVENTORY,
  SCORE, HELP and QUIT. In a group all consoles are one player. }
TYPE
  ROOM = (NOWHERE, GATE, HALL, CELLAR, WELL, LIBRARY, TOWER, VAULT);
  DIRECTION = (NORTH, EAST, SOUTH, WEST);
  THING = (LAMP, ROPE, KEY, BOOK, CROWN);
  WORD = STRING[12];
VAR
  NAMES: ARRAY[THING] OF WORD;
  EXITS: ARRAY[ROOM, DIRECTION] OF ROOM;
  PLACES: ARRAY[THING] OF ROOM;
  CARRIED: SET OF THING;
  SEEN: SET OF ROOM;
  HERE: ROOM;
  LIT, DONE: BOOLEAN;
  MOVES: INTEGER;
  LINE: STRING;
  VERB, NOUN: WORD;

PROCEDURE JOIN(A: ROOM; D: DIRECTION; B: ROOM; BACK: DIRECTION);
BEGIN
  EXITS[A, D] := B;
  EXITS[B, BACK] := A
END;

PROCEDURE BEGINGAME;
VAR
  R: ROOM;
  D: DIRECTION;
BEGIN
  NAMES[LAMP] := 'LAMP'; NAMES[ROPE] := 'ROPE'; NAMES[KEY] := 'KEY';
  NAMES[BOOK] := 'BOOK'; NAMES[CROWN] := 'CROWN';
  FOR R := NOWHERE TO VAULT DO
    FOR D := NORTH TO WEST DO EXITS[R, D] := NOWHERE;
  JOIN(GATE, NORTH, HALL, SOUTH);
  JOIN(HALL, NORTH, CELLAR, SOUTH);
  JOIN(HALL, EAST, LIBRARY, WEST);
  JOIN(HALL, WEST, TOWER, EAST);
  JOIN(CELLAR, EAST, WELL, WEST);
  JOIN(LIBRARY, NORTH, VAULT, SOUTH);
  PLACES[LAMP] := GATE; PLACES[ROPE] := TOWER; PLACES[KEY] := WELL;
  PLACES[BOOK] := LIBRARY; PLACES[CROWN] := VAULT;
  CARRIED := [];
  SEEN := [];
  HERE := GATE;
  LIT := FALSE;
  DONE := FALSE;
  MOVES := 0
END;

PROCEDURE DESCRIBE;
BEGIN
  CASE HERE OF
    GATE: WRITELN('You stand at the gate of a castle. A door leads north.');
    HALL: WRITELN('A great hall. Doors lead in all directions.');
    CELLAR: WRITELN('A cellar. Water drips in the east. Stairs lead up, south.');
    WELL: WRITELN('A shaft. Far below something glitters. The cellar is west.');
    LIBRARY: WRITELN('Shelves up to the ceiling. An iron door is in the north.');
    TOWER: WRITELN('A round room with a window. The hall is east.');
    VAULT: WRITELN('A vault of white stone. The library is south.')
  END
END;

FUNCTION ISDARK: BOOLEAN;
BEGIN
  ISDARK := (HERE IN [CELLAR, WELL, VAULT]) AND NOT (LIT AND (LAMP IN CARRIED))
END;

PROCEDURE LOOK;
VAR
  T: THING;
BEGIN
  IF ISDARK THEN WRITELN('It is dark. Something breathes here.')
  ELSE
    BEGIN
      DESCRIBE;
      SEEN := SEEN + [HERE];
      FOR T := LAMP TO CROWN DO
        IF PLACES[T] = HERE THEN WRITELN('There is a ', NAMES[T], ' here.')
    END
END;

PROCEDURE GO(D: DIRECTION);
VAR
  NEXT: ROOM;
BEGIN
  NEXT := EXITS[HERE, D];
  IF NEXT = NOWHERE THEN WRITELN('There is a wall.')
  ELSE IF (NEXT = VAULT) AND NOT (KEY IN CARRIED) THEN WRITELN('The iron door is locked.')
  ELSE IF ISDARK AND (NEXT <> HALL) THEN
    BEGIN
      WRITELN('You stumble in the dark, and something bites. The game is over.');
      DONE := TRUE
    END
  ELSE
    BEGIN
      HERE := NEXT;
      LOOK
    END
END;

{ The thing that NOUN names, or an end of the command }
PROCEDURE TAKEORDROP(TAKES: BOOLEAN);
VAR
  T: THING;
BEGIN
  FOR T := LAMP TO CROWN DO
    IF NAMES[T] = NOUN THEN
      BEGIN
        IF TAKES AND (T IN CARRIED) THEN WRITELN('You have it.')
        ELSE IF TAKES AND (PLACES[T] <> HERE) OR NOT TAKES AND NOT (T IN CARRIED) THEN
          WRITELN('There is no ', NOUN, ' here.')
        ELSE IF TAKES AND ISDARK THEN WRITELN('You cannot see it.')
        ELSE IF TAKES AND (T = KEY) AND NOT (ROPE IN CARRIED) THEN
          WRITELN('It lies too deep. A rope would help.')
        ELSE IF TAKES THEN
          BEGIN
            CARRIED := CARRIED + [T];
            PLACES[T] := NOWHERE;
            WRITELN('Taken.');
            IF T = BOOK THEN WRITELN('It opens where it says: what you seek is north.')
          END
        ELSE
          BEGIN
            CARRIED := CARRIED - [T];
            PLACES[T] := HERE;
            WRITELN('Dropped.');
            IF (T = CROWN) AND (HERE = GATE) THEN
              BEGIN
                WRITELN('The people cheer. You have won!');
                DONE := TRUE
              END
          END;
        EXIT(TAKEORDROP)
      END;
  WRITELN('What is ', NOUN, '?')
END;

PROCEDURE INVENTORY;
VAR
  T: THING;
BEGIN
  IF CARRIED = [] THEN WRITELN('You carry nothing.')
  ELSE
    FOR T := LAMP TO CROWN DO
      IF T IN CARRIED THEN WRITELN('You carry a ', NAMES[T], '.')
END;

PROCEDURE SCORE;
VAR
  R: ROOM;
  N: INTEGER;
BEGIN
  N := 0;
  FOR R := GATE TO VAULT DO
    IF R IN SEEN THEN N := N + 10;
  IF CROWN IN CARRIED + [] THEN N := N + 20;
  IF PLACES[CROWN] = GATE THEN N := N + 30;
  WRITELN('You have ', N, ' of 100 points after ', MOVES, ' moves.')
END;

PROCEDURE LIGHT;
BEGIN
  IF NOT (LAMP IN CARRIED) THEN WRITELN('You have no lamp.')
  ELSE
    BEGIN
      LIT := TRUE;
      WRITELN('The lamp burns.');
      LOOK
    END
END;

{ Two words of the line, in capitals }
PROCEDURE ASK;
VAR
  I: INTEGER;
BEGIN
  WRITE('> ');
  READLN(LINE);
  FOR I := 1 TO LENGTH(LINE) DO
    IF LINE[I] IN ['a'..'z'] THEN LINE[I] := CHR(ORD(LINE[I]) - 32);
  VERB := '';
  NOUN := '';
  I := POS(' ', LINE);
  IF I = 0 THEN I := LENGTH(LINE) + 1
  ELSE IF LENGTH(LINE) - I <= 12 THEN NOUN := COPY(LINE, I + 1, LENGTH(LINE) - I);
  IF I <= 13 THEN VERB := COPY(LINE, 1, I - 1)
END;

PROCEDURE OBEY;
BEGIN
  MOVES := MOVES + 1;
  IF VERB = 'N' THEN GO(NORTH)
  ELSE IF VERB = 'E' THEN GO(EAST)
  ELSE IF VERB = 'S' THEN GO(SOUTH)
  ELSE IF VERB = 'W' THEN GO(WEST)
  ELSE IF VERB = 'LOOK' THEN LOOK
  ELSE IF VERB = 'TAKE' THEN TAKEORDROP(TRUE)
  ELSE IF VERB = 'DROP' THEN TAKEORDROP(FALSE)
  ELSE IF VERB = 'LIGHT' THEN LIGHT
  ELSE IF VERB = 'INVENTORY' THEN INVENTORY
  ELSE IF VERB = 'SCORE' THEN SCORE
  ELSE IF (VERB = 'QUIT') OR EOF THEN DONE := TRUE
  ELSE WRITELN('N, E, S, W, LOOK, TAKE, DROP, LIGHT, INVENTORY, SCORE, QUIT')
END;

BEGIN
  BEGINGAME;
  WRITELN('THE CROWN');
  LOOK;
  REPEAT
    ASK;
    OBEY
  UNTIL DONE;
  SCORE
END.

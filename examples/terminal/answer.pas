PROGRAM ANSWER;
{ Asks for a line, and answers with it, until a line is empty. A line ends in
  CR (13), as in the p-System: it wants ./console. Unit 1, the console, writes
  each character that is read from it, the CR too. A line has at most 80
  characters with its CR. }
CONST
  CONSOLE = 1;
  CR = 13;
VAR
  LINE: PACKED ARRAY[0..79] OF CHAR;
  LENGTH: INTEGER;

PROCEDURE PUT(C: CHAR);
BEGIN
  UNITWRITE(CONSOLE, C, 1)
END;

PROCEDURE READLINE;            { its CR is counted }
BEGIN
  LENGTH := 0;
  REPEAT
    UNITREAD(CONSOLE, LINE[LENGTH], 1);
    LENGTH := LENGTH + 1
  UNTIL LINE[LENGTH - 1] = CHR(CR)
END;

BEGIN
  REPEAT
    PUT('?'); PUT(' ');
    READLINE;
    IF LENGTH <> 1 THEN
      BEGIN
        PUT('='); PUT(' ');
        UNITWRITE(CONSOLE, LINE, LENGTH)
      END
  UNTIL LENGTH = 1
END.

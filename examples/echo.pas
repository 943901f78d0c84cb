PROGRAM ECHO;
{ Repeats what is typed, up to a full stop. Unit 1, the console, writes each
  character that is read from it, so that reading is enough. A line ends in
  LF (10), as terminals have it; the p-System had CR (13). }
CONST
  CONSOLE = 1;
  LF = 10;
VAR
  C: CHAR;

PROCEDURE PUT(C: CHAR);
BEGIN
  UNITWRITE(CONSOLE, C, 1)
END;

PROCEDURE PROMPT;
BEGIN
  PUT('>'); PUT(' ')
END;

BEGIN
  PROMPT;
  REPEAT
    UNITREAD(CONSOLE, C, 1);
    IF C = CHR(LF) THEN PROMPT
  UNTIL C = '.';
  PUT(CHR(LF));
  PUT('B'); PUT('Y'); PUT('E');
  PUT(CHR(LF))
END.

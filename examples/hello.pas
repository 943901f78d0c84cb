PROGRAM HELLO;
VAR
  NAME: STRING;
  AGE: INTEGER;
BEGIN
  WRITE('Who are you? ');
  READLN(NAME);
  WRITE('How old? ');
  READLN(AGE);
  WRITELN('Hello, ', NAME, '. In ten years you are ', AGE + 10, '.')
END.

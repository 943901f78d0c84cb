PROGRAM CALCULATOR;
{ Reads lines such as 2*(3+4)-10%3 and prints what each comes to, or ? where it
  is no expression, divides by 0, or leaves -32768 to 32767. % is the remainder.
  A - directly in front of a number belongs to it, so that -32768 is one. A line
  that begins with a full stop ends the program. Unit 2 is the console without
  echo. A line ends in LF (10), as terminals have it; the p-System had CR (13). }
CONST
  CONSOLE = 1;
  SYSTERM = 2;
  LF = 10;

PROCEDURE PUT(C: CHAR);
BEGIN
  UNITWRITE(CONSOLE, C, 1)
END;

PROCEDURE PRINT(N: INTEGER);   { -32768 too, which has no opposite }
BEGIN
  IF N DIV 10 <> 0 THEN PRINT(N DIV 10)
  ELSE IF N < 0 THEN PUT('-');
  PUT(CHR(ABS(N MOD 10) + ORD('0')))
END;

PROCEDURE CALCULATE;
VAR
  C: CHAR;                     { the character that is looked at }
  BAD: BOOLEAN;
  RESULT: INTEGER;

  PROCEDURE NEXT;
  BEGIN
    REPEAT UNITREAD(SYSTERM, C, 1) UNTIL C <> ' '
  END;

  FUNCTION APPLY(A: INTEGER; SIGN: CHAR; B: INTEGER): INTEGER;
  VAR
    R: INTEGER;
  BEGIN
    R := 0;
    CASE SIGN OF
      '%': IF B = 0 THEN BAD := TRUE ELSE R := A MOD B;
      '*': BEGIN
             R := A * B;
             IF (A <> 0) AND (B <> 0) THEN
               IF (R DIV A <> B) OR (R DIV B <> A) THEN BAD := TRUE
           END;
      '+': BEGIN
             R := A + B;
             IF ((A < 0) = (B < 0)) AND ((A < 0) <> (R < 0)) THEN BAD := TRUE
           END;
      '-': BEGIN
             R := A - B;
             IF ((A < 0) <> (B < 0)) AND ((A < 0) <> (R < 0)) THEN BAD := TRUE
           END;
      '/': IF B = 0 THEN BAD := TRUE
           ELSE IF B = -1 THEN R := APPLY(0, '-', A)
           ELSE R := A DIV B
    END;
    APPLY := R
  END;

  FUNCTION OPPOSITE: INTEGER;  { of the number that begins here: 32768 does not fit }
  VAR
    N: INTEGER;
  BEGIN
    N := 0;
    WHILE (C >= '0') AND (C <= '9') DO
      BEGIN
        N := APPLY(APPLY(N, '*', 10), '-', ORD(C) - ORD('0'));
        NEXT
      END;
    OPPOSITE := N
  END;

  FUNCTION EXPRESSION: INTEGER;
  VAR
    SUM: INTEGER;
    SIGN: CHAR;

    FUNCTION TERM: INTEGER;
    VAR
      PRODUCT: INTEGER;
      SIGN: CHAR;

      FUNCTION FACTOR: INTEGER;
      VAR
        N: INTEGER;
        FOUND: BOOLEAN;
      BEGIN
        N := 0;
        FOUND := FALSE;
        CASE C OF
          '(': BEGIN
                 FOUND := TRUE;
                 NEXT;
                 N := EXPRESSION;
                 IF C = ')' THEN NEXT ELSE BAD := TRUE
               END;
          '-': BEGIN
                 FOUND := TRUE;
                 NEXT;
                 IF (C >= '0') AND (C <= '9') THEN N := OPPOSITE
                 ELSE N := APPLY(0, '-', FACTOR)
               END;
          '0', '1', '2', '3', '4', '5', '6', '7', '8', '9':
               BEGIN
                 FOUND := TRUE;
                 N := APPLY(0, '-', OPPOSITE)
               END
        END;
        IF NOT FOUND THEN BAD := TRUE;
        FACTOR := N
      END;

    BEGIN { TERM }
      PRODUCT := FACTOR;
      WHILE (C = '*') OR (C = '/') OR (C = '%') DO
        BEGIN
          SIGN := C;
          NEXT;
          PRODUCT := APPLY(PRODUCT, SIGN, FACTOR)
        END;
      TERM := PRODUCT
    END;

  BEGIN { EXPRESSION }
    SUM := TERM;
    WHILE (C = '+') OR (C = '-') DO
      BEGIN
        SIGN := C;
        NEXT;
        SUM := APPLY(SUM, SIGN, TERM)
      END;
    EXPRESSION := SUM
  END;

BEGIN { CALCULATE }
  NEXT;
  WHILE C <> '.' DO
    BEGIN
      BAD := FALSE;
      RESULT := EXPRESSION;
      WHILE C <> CHR(LF) DO
        BEGIN
          BAD := TRUE;
          NEXT
        END;
      IF BAD THEN PUT('?') ELSE PRINT(RESULT);
      PUT(CHR(LF));
      NEXT
    END
END;

BEGIN
  CALCULATE
END.

{ WRITE of a text that is packed. A word has three symbols of 5 bits, the first in the
  lowest bits: 1 to 26 are letters, 27 is a blank, 28 a point, 29 the end of a line; 30
  makes the next letter one of the other case, and twice all that follow; behind 31
  comes a character from 33 to 63; 0 is nothing }
{$R-}
VAR
  SYMBOLS: ARRAY[1..54] OF INTEGER;

PROCEDURE PUTWORDS(N: INTEGER);   { the first N words of SYMBOLS, of 80 characters at most }
VAR
  I, K, REST, CODE, CASES, NEXT: INTEGER;  { NEXT is the 30 or 31 before, or 0 }
BEGIN
  K := 0;
  CASES := 64;
  NEXT := 0;
  FOR I := 1 TO N DO
    BEGIN
      REST := SYMBOLS[I];
      WHILE REST > 0 DO
        BEGIN
          CODE := REST MOD 32;
          REST := REST DIV 32;
          IF NEXT = 0 THEN
            IF CODE >= 30 THEN NEXT := CODE
            ELSE
              BEGIN
                K := K + 1;
                IF CODE <= 26 THEN SCRATCH[K] := CHR(CODE + CASES)
                ELSE IF CODE = 27 THEN SCRATCH[K] := ' '
                ELSE IF CODE = 28 THEN SCRATCH[K] := '.'
                ELSE SCRATCH[K] := CHR(LINEEND)
              END
          ELSE IF (NEXT = 30) AND (CODE = 30) THEN
            BEGIN
              CASES := 160 - CASES;
              NEXT := 0
            END
          ELSE
            BEGIN
              K := K + 1;
              IF NEXT = 31 THEN SCRATCH[K] := CHR(CODE + 32)
              ELSE SCRATCH[K] := CHR(CODE + 160 - CASES);
              NEXT := 0
            END
        END
    END;
  PUTTEXT(K)
END;

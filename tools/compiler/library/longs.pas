{ Long integers: a word with the sign, which is 0 or -1, and 18 words with two
  decimal digits each, the lowest first. A variable INTEGER[N] has as many of
  these as its N digits need. 0 has the sign 0. }
{$R-}
CONST
  LONGWORDS = 18;

TYPE
  LONG = ARRAY[0..LONGWORDS] OF INTEGER;

VAR
  LONGFITS: 0..MAXINT;           { below 0 a number has too many digits }

PROCEDURE WIDEN(VAR D: LONG; VAR S: WORDS; N: INTEGER);  { a variable of N words }
VAR
  I: INTEGER;
BEGIN
  FOR I := 0 TO N DO D[I] := S[I];
  FOR I := N + 1 TO LONGWORDS DO D[I] := 0
END;

PROCEDURE LONGOF(VAR D: LONG; N: INTEGER);
VAR
  I, REST: INTEGER;
BEGIN
  D[0] := -ORD(N < 0);
  FOR I := 1 TO LONGWORDS DO
    BEGIN
      REST := N DIV 100;
      D[I] := ABS(N - 100 * REST);
      N := REST
    END
END;

{ Into a variable of N words, of which the last one is at most TOP }
PROCEDURE NARROW(VAR D: WORDS; VAR S: LONG; N, TOP: INTEGER);
VAR
  I: INTEGER;
  FITTING: 0..99;
BEGIN
  FOR I := N + 1 TO LONGWORDS DO
    BEGIN
      {$R+} FITTING := -S[I] {$R-}       { error 1: the number has too many digits }
    END;
  {$R+} FITTING := TOP - S[N]; {$R-}     { error 1: the number has too many digits }
  FOR I := 0 TO N DO D[I] := S[I]
END;

FUNCTION TOPOF(VAR A: LONG): INTEGER;    { its highest word that is not 0, or 0 }
VAR
  I: INTEGER;
BEGIN
  I := LONGWORDS;
  WHILE (I > 0) AND (A[I] = 0) DO I := I - 1;
  TOPOF := I
END;

FUNCTION SIZESOF(VAR A, B: LONG): INTEGER;  { compares them without their signs }
VAR
  I: INTEGER;
BEGIN
  I := LONGWORDS;
  WHILE (I > 1) AND (A[I] = B[I]) DO I := I - 1;
  SIZESOF := A[I] - B[I]
END;

FUNCTION COMPARELONGS(VAR A, B: LONG): INTEGER;
BEGIN
  IF A[0] <> B[0] THEN COMPARELONGS := A[0] - B[0]
  ELSE IF A[0] < 0 THEN COMPARELONGS := SIZESOF(B, A)
  ELSE COMPARELONGS := SIZESOF(A, B)
END;

PROCEDURE NEGATELONG(VAR A: LONG);
BEGIN
  IF TOPOF(A) > 0 THEN A[0] := -1 - A[0]
END;

PROCEDURE ADDLONG(VAR A, B: LONG);
VAR
  C, I: INTEGER;
  FITTING: 0..0;
BEGIN
  C := 0;
  IF A[0] = B[0] THEN
    BEGIN
      FOR I := 1 TO LONGWORDS DO
        BEGIN
          C := C + A[I] + B[I];
          A[I] := C MOD 100;
          C := C DIV 100
        END;
      {$R+} FITTING := C {$R-}           { error 1: the number has too many digits }
    END
  ELSE
    BEGIN
      IF SIZESOF(A, B) >= 0 THEN
        FOR I := 1 TO LONGWORDS DO
          BEGIN
            C := A[I] - B[I] - C;
            A[I] := C + 100 * ORD(C < 0);
            C := ORD(C < 0)
          END
      ELSE
        BEGIN
          A[0] := B[0];
          FOR I := 1 TO LONGWORDS DO
            BEGIN
              C := B[I] - A[I] - C;
              A[I] := C + 100 * ORD(C < 0);
              C := ORD(C < 0)
            END
        END;
      IF TOPOF(A) = 0 THEN A[0] := 0
    END
END;

PROCEDURE SUBLONG(VAR A, B: LONG);
VAR
  C: LONG;
BEGIN
  C := B;
  NEGATELONG(C);
  ADDLONG(A, C)
END;

PROCEDURE MULLONG(VAR A, B: LONG);
VAR
  C: LONG;
  I, J, M, N, T: INTEGER;
  FITTING: -1..LONGWORDS;
BEGIN
  M := TOPOF(A);
  N := TOPOF(B);
  FOR I := 1 TO LONGWORDS DO C[I] := 0;
  {$R+} FITTING := M + N - 1; {$R-}      { error 1: the number has too many digits }
  FOR I := 1 TO M DO
    BEGIN
      T := 0;
      FOR J := I TO I + N - 1 DO
        BEGIN
          T := T + C[J] + A[I] * B[J - I + 1];
          C[J] := T MOD 100;
          T := T DIV 100
        END;
      IF I + N <= LONGWORDS THEN C[I + N] := T
      ELSE
        BEGIN
          {$R+} FITTING := -T {$R-}      { error 1: the number has too many digits }
        END
    END;
  C[0] := 0;
  IF (A[0] <> B[0]) AND (TOPOF(C) > 0) THEN C[0] := -1;
  A := C
END;

{ Two digits of the quotient after the other, from the highest on. Each is estimated from below by
  the highest words, until less than the divisor is left }
PROCEDURE DIVLONG(VAR A, B: LONG);
VAR
  Q, R: LONG;
  C, I, J, N, T: INTEGER;
  SIGN: INTEGER;
BEGIN
  N := TOPOF(B);
  T := 1 DIV N;                          { error 6: a division by 0 }
  SIGN := -ORD(A[0] <> B[0]);
  LONGOF(Q, 0);
  LONGOF(R, 0);
  FOR I := TOPOF(A) DOWNTO 1 DO
    BEGIN
      FOR J := LONGWORDS DOWNTO 2 DO R[J] := R[J - 1];
      R[1] := A[I];
      WHILE SIZESOF(R, B) >= 0 DO
        BEGIN
          T := R[N];
          IF N < LONGWORDS THEN T := 100 * R[N + 1] + T;
          T := T DIV (B[N] + 1);
          IF T = 0 THEN T := 1;
          C := 0;
          FOR J := 1 TO LONGWORDS DO
            BEGIN
              C := R[J] - T * B[J] + C + 10000;
              R[J] := C MOD 100;
              C := C DIV 100 - 100
            END;
          Q[I] := Q[I] + T
        END
    END;
  IF TOPOF(Q) > 0 THEN Q[0] := SIGN;
  A := Q
END;

FUNCTION TRUNCLONG(VAR A: LONG): INTEGER;
VAR
  C: LONG;
  FITTING: 0..0;
  N: INTEGER;
BEGIN
  N := A[1] + 100 * A[2] + 10000 * (A[3] MOD 10);
  IF A[0] < 0 THEN N := -N;
  LONGOF(C, N);
  {$R+} FITTING := COMPARELONGS(A, C); {$R-}  { error 1: the number is outside the INTEGERs }
  TRUNCLONG := N
END;

FUNCTION DIGITSOF(VAR A: LONG): INTEGER;  { puts them into NUMERAL; how many, with the sign }
VAR
  I, N: INTEGER;
BEGIN
  N := 0;
  IF A[0] < 0 THEN
    BEGIN
      N := 1;
      NUMERAL[1] := '-'
    END;
  I := TOPOF(A);
  IF I = 0 THEN I := 1;
  IF A[I] > 9 THEN
    BEGIN
      N := N + 1;
      NUMERAL[N] := CHR(A[I] DIV 10 + 48)
    END;
  N := N + 1;
  NUMERAL[N] := CHR(A[I] MOD 10 + 48);
  FOR I := I - 1 DOWNTO 1 DO
    BEGIN
      NUMERAL[N + 1] := CHR(A[I] DIV 10 + 48);
      NUMERAL[N + 2] := CHR(A[I] MOD 10 + 48);
      N := N + 2
    END;
  DIGITSOF := N
END;

PROCEDURE WRITELONG(VAR A: LONG; WIDTH: INTEGER);
VAR
  N: INTEGER;
BEGIN
  N := DIGITSOF(A);
  BLANKS(WIDTH - N);
  WRITEARRAY(NUMERAL, N, 0)
END;

PROCEDURE STRLONG(VAR A: LONG; VAR S: BYTES; M: INTEGER);
VAR
  I, N: INTEGER;
  LEFT: 0..255;
BEGIN
  N := DIGITSOF(A);
  {$R+} LEFT := M - N; {$R-}             { error 1: the STRING has no room }
  FOR I := 1 TO N DO S[I] := NUMERAL[I];
  S[0] := CHR(N)
END;

{ As READINT. A backspace takes back a digit }
PROCEDURE READLONG(F: INTEGER; VAR A: LONG);
VAR
  I, N, COUNT, T: INTEGER;
  NEGATIVE, GOING: BOOLEAN;
  FITTING: 0..0;
BEGIN
  IF NOT ISFULL[F] THEN NEXTKEY(F);
  WHILE ((WINDOW[F] = ' ') OR ISBACK(F, 0)) AND NOT ISEOF[F] DO NEXTKEY(F);
  NEGATIVE := WINDOW[F] = '-';
  IF NEGATIVE OR (WINDOW[F] = '+') THEN NEXTKEY(F);
  LONGOF(A, 0);
  COUNT := 0;
  REPEAT
    GOING := TRUE;
    IF ISBACK(F, COUNT) THEN
      BEGIN
        N := 0;
        FOR I := LONGWORDS DOWNTO 1 DO
          BEGIN
            T := 100 * N + A[I];
            A[I] := T DIV 10;
            N := T MOD 10
          END;
        IF COUNT > 0 THEN COUNT := COUNT - 1
      END
    ELSE IF (WINDOW[F] >= '0') AND (WINDOW[F] <= '9') THEN
      BEGIN
        N := ORD(WINDOW[F]) - 48;
        FOR I := 1 TO LONGWORDS DO
          BEGIN
            N := 10 * A[I] + N;
            A[I] := N MOD 100;
            N := N DIV 100
          END;
        {$R+} FITTING := N; {$R-}        { error 1: the number has too many digits }
        COUNT := COUNT + 1
      END
    ELSE GOING := FALSE;
    IF GOING THEN NEXTKEY(F)
  UNTIL NOT GOING;
  IF NEGATIVE THEN NEGATELONG(A)
END;

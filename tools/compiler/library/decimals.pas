{ REALs in decimal digits: WRITE, READ and PWROFTEN. All is exact, and rounded
  once.

  DECIMALS has three digits in each word, from FIRSTOFDIGITS to LASTOFDIGITS.
  Those in front of the point end at UNITS. A digit has a place, which is 1 for
  the first behind the point, and 0 for the last in front of it. }
{$R-}
CONST
  UNITS = 13;                    { 39 digits in front of the point, and 150 behind it }
  LASTWORD = 63;
  UNITPLACE = 39;                { 3 * UNITS }

TYPE
  CHUNKS = ARRAY[1..6] OF INTEGER;

VAR
  DECIMALS: ARRAY[0..LASTWORD] OF INTEGER;
  DFIRST, DLAST: INTEGER;
  STICKY: BOOLEAN;               { something stands behind the last digit }
  NUMERAL: PACKED ARRAY[1..80] OF CHAR;  { what READ has read }

PROCEDURE TIMES(P, C: INTEGER);  { the number by P, up to 32, and in its last word C more }
VAR
  I, T: INTEGER;
BEGIN
  FOR I := DLAST DOWNTO DFIRST DO
    BEGIN
      T := P * DECIMALS[I] + C;
      C := T DIV 1000;
      DECIMALS[I] := T - 1000 * C
    END;
  IF C > 0 THEN
    BEGIN
      DFIRST := DFIRST - 1;
      DECIMALS[DFIRST] := C
    END
END;

{ The words up to LAST by 1 / P, with P up to 32; what is left behind them }
FUNCTION DIVIDED(P, LAST: INTEGER): INTEGER;
VAR
  I, R, T: INTEGER;
BEGIN
  R := 0;
  FOR I := DFIRST TO LAST DO
    BEGIN
      T := 1000 * R + DECIMALS[I];
      DECIMALS[I] := T DIV P;
      R := T - P * DECIMALS[I]
    END;
  IF (DECIMALS[DFIRST] = 0) AND (DFIRST < DLAST) THEN DFIRST := DFIRST + 1;
  DIVIDED := R
END;

PROCEDURE HALVE(P: INTEGER);     { the number by 1 / P, a power of 2 }
VAR
  R, T: INTEGER;
BEGIN
  R := DIVIDED(P, DLAST);
  WHILE R > 0 DO
    BEGIN
      T := 1000 * R;
      DLAST := DLAST + 1;
      DECIMALS[DLAST] := T DIV P;
      R := T - P * DECIMALS[DLAST]
    END
END;

FUNCTION WORDAT(PLACE: INTEGER): INTEGER;
BEGIN
  WORDAT := (PLACE + UNITPLACE + 2) DIV 3
END;

FUNCTION UNITAT(PLACE: INTEGER): INTEGER;  { what a digit counts in its word }
BEGIN
  PLACE := (PLACE + UNITPLACE) MOD 3;
  UNITAT := 1;
  IF PLACE = 1 THEN UNITAT := 100
  ELSE IF PLACE = 2 THEN UNITAT := 10
END;

FUNCTION POWEROFTWO(N: INTEGER): INTEGER;  { from 1 to 4 }
BEGIN
  POWEROFTWO := 2 * N + ORD(N > 2) * 2 * (3 * N - 8)
END;

PROCEDURE UNROLL(H, L: INTEGER);  { a REAL as DECIMALS, without its sign }
VAR
  E, P: INTEGER;
BEGIN
  DFIRST := UNITS;
  DLAST := UNITS;
  DECIMALS[UNITS] := 0;
  E := ORD(ODD(H) AND ODD(POWERBITS)) DIV 128 - 138;
  IF E > -138 THEN
    BEGIN
      P := HALFWAY + 16 * ORD(ODD(H) AND ODD(127))
        + ORD(ODD(ORD(ODD(L) AND ODD(-4096)) DIV 4096) AND ODD(15));
      DFIRST := UNITS - 1;
      DECIMALS[UNITS - 1] := P DIV 1000;
      DECIMALS[UNITS] := P MOD 1000;
      L := ORD(ODD(L) AND ODD(4095));
      IF L > 0 THEN
        BEGIN
          TIMES(32, L DIV 128);
          TIMES(32, ORD(ODD(L) AND ODD(127)) DIV 4);
          TIMES(4, ORD(ODD(L) AND ODD(3)));
          E := E - 12
        END;
      WHILE E > 4 DO
        BEGIN
          TIMES(32, 0);
          E := E - 5
        END;
      IF E > 0 THEN TIMES(POWEROFTWO(E), 0);
      WHILE E < -4 DO
        BEGIN
          HALVE(32);
          E := E + 5
        END;
      IF E < 0 THEN HALVE(POWEROFTWO(-E))
    END
END;

PROCEDURE NEAREST(PLACE: INTEGER);  { adds a half of a digit's unit; what is behind is not used }
VAR
  I: INTEGER;
BEGIN
  I := WORDAT(PLACE + 1);
  IF I <= DLAST THEN
    BEGIN
      WHILE I < DFIRST DO
        BEGIN
          DFIRST := DFIRST - 1;
          DECIMALS[DFIRST] := 0
        END;
      DECIMALS[I] := DECIMALS[I] + 5 * UNITAT(PLACE + 1);
      WHILE DECIMALS[I] > 999 DO
        BEGIN
          DECIMALS[I] := DECIMALS[I] - 1000;
          I := I - 1;
          IF I < DFIRST THEN
            BEGIN
              DFIRST := I;
              DECIMALS[I] := 0
            END;
          DECIMALS[I] := DECIMALS[I] + 1
        END
    END
END;

FUNCTION DIGITAT(PLACE: INTEGER): CHAR;
VAR
  I: INTEGER;
BEGIN
  I := WORDAT(PLACE);
  DIGITAT := '0';
  IF (I >= DFIRST) AND (I <= DLAST) THEN
    DIGITAT := CHR(DECIMALS[I] DIV UNITAT(PLACE) MOD 10 + 48)
END;

FUNCTION POWERNOW: INTEGER;      { of ten: how far the first digit is in front of the units }
VAR
  I: INTEGER;
BEGIN
  WHILE (DECIMALS[DFIRST] = 0) AND (DFIRST < DLAST) DO DFIRST := DFIRST + 1;
  I := 3 * (UNITS - DFIRST);
  IF DECIMALS[DFIRST] > 99 THEN I := I + 2
  ELSE IF DECIMALS[DFIRST] > 9 THEN I := I + 1
  ELSE IF DECIMALS[DFIRST] = 0 THEN I := 0;
  POWERNOW := I
END;

PROCEDURE WRITEFIXED(ISNEGATIVE: BOOLEAN; WIDTH, PLACES: INTEGER);
VAR
  I, N: INTEGER;
BEGIN
  NEAREST(PLACES);
  N := POWERNOW;
  IF N < 0 THEN N := 0;
  BLANKS(WIDTH - N - 1 - ORD(ISNEGATIVE) - ORD(PLACES > 0) - PLACES);
  IF ISNEGATIVE THEN PUTCHAR('-');
  FOR I := -N TO PLACES DO
    BEGIN
      IF I = 1 THEN PUTCHAR('.');
      PUTCHAR(DIGITAT(I))
    END
END;

{ With PLACES below 0 a sign or a blank, one digit, the point, five digits, and a
  power of ten if it is not 0 }
PROCEDURE WRITEREAL(H, L, WIDTH, PLACES: INTEGER);
VAR
  I, N, K: INTEGER;
BEGIN
  UNROLL(H, L);
  IF PLACES >= 0 THEN WRITEFIXED(H < 0, WIDTH, PLACES)
  ELSE
    BEGIN
      NEAREST(5 - POWERNOW);
      N := POWERNOW;
      SCRATCH[1] := ' ';
      IF H < 0 THEN SCRATCH[1] := '-';
      SCRATCH[2] := DIGITAT(-N);
      SCRATCH[3] := '.';
      FOR I := 1 TO 5 DO SCRATCH[I + 3] := DIGITAT(I - N);
      K := 8;
      IF N <> 0 THEN
        BEGIN
          SCRATCH[9] := 'E';
          K := 10;
          IF N < 0 THEN
            BEGIN
              SCRATCH[10] := '-';
              N := -N;
              K := 11
            END;
          IF N > 9 THEN
            BEGIN
              SCRATCH[K] := CHR(N DIV 10 + 48);
              K := K + 1
            END;
          SCRATCH[K] := CHR(N MOD 10 + 48)
        END;
      BLANKS(WIDTH - K);
      PUTTEXT(K)
    END
END;

PROCEDURE TRIM;                  { words of 0 at the end, behind the point, go }
BEGIN
  WHILE (DLAST > UNITS) AND (DECIMALS[DLAST] = 0) DO DLAST := DLAST - 1
END;

{ The next five bits of what is behind the point }
FUNCTION CHUNK: INTEGER;
BEGIN
  CHUNK := 0;
  IF DFIRST <= DLAST THEN
    BEGIN
      TIMES(32, 0);
      TRIM;
      IF DFIRST = UNITS THEN
        BEGIN
          CHUNK := DECIMALS[UNITS];
          DFIRST := UNITS + 1
        END
    END
END;

{ The REAL that is nearest to DECIMALS, with a sign of 0 or LOWEST }
FUNCTION ROLLUP(SIGN: INTEGER): REAL;
VAR
  C: CHUNKS;
  I, N, P: INTEGER;
BEGIN
  WHILE DLAST < UNITS DO
    BEGIN
      DLAST := DLAST + 1;
      DECIMALS[DLAST] := 0
    END;
  FOR I := 1 TO 6 DO C[I] := 0;
  N := 0;
  WHILE DFIRST <= UNITS DO
    IF DECIMALS[DFIRST] = 0 THEN DFIRST := DFIRST + 1
    ELSE
      BEGIN                              { five bits more of what is in front of the point }
        IF C[6] > 0 THEN STICKY := TRUE;
        FOR I := 6 DOWNTO 2 DO C[I] := C[I - 1];
        I := DFIRST;
        C[1] := DIVIDED(32, UNITS);
        N := N + 1
      END;
  P := N - 1;
  IF N = 0 THEN
    REPEAT
      C[1] := CHUNK;
      P := P - ORD(C[1] = 0)
    UNTIL (C[1] > 0) OR (P < -31);
  FOR I := N + ORD(N = 0) + 1 TO 6 DO C[I] := CHUNK;
  TRIM;
  IF DFIRST <= DLAST THEN STICKY := TRUE;
  P := 5 * P + 131;
  N := 32 * C[1] + C[2];
  C[3] := 32 * C[3] + C[4];
  C[5] := 32 * C[5] + C[6];
  IF N = 0 THEN P := -1
  ELSE
    WHILE N < 512 DO
      BEGIN
        N := N + N + C[3] DIV 512;
        C[3] := 2 * (C[3] MOD 512) + C[5] DIV 512;
        C[5] := 2 * (C[5] MOD 512);
        P := P - 1
      END;
  ROLLUP := ROUNDED(SIGN, P, 4 * N + C[3] DIV 256, C[3] MOD 256 * 16 + C[5] DIV 64,
    C[5] MOD 64 * 64 + ORD(STICKY))
END;

PROCEDURE PUTDIGIT(N, PLACE: INTEGER);  { a digit behind all that are there }
VAR
  I: INTEGER;
  FITTING: -38..MAXINT;
BEGIN
  IF (N > 0) OR (DFIRST <= DLAST) THEN
    BEGIN
      I := LASTWORD + 1;
      IF PLACE < 151 THEN
        BEGIN
          {$R+} FITTING := PLACE; {$R-}  { error 1: the REAL is too great }
          I := WORDAT(PLACE)
        END;
      IF I > LASTWORD THEN STICKY := STICKY OR (N > 0)
      ELSE
        BEGIN
          IF DFIRST > DLAST THEN
            BEGIN
              DFIRST := I;
              DLAST := I - 1
            END;
          IF I > DLAST THEN
            BEGIN
              DLAST := I;
              DECIMALS[I] := 0
            END;
          DECIMALS[I] := DECIMALS[I] + N * UNITAT(PLACE)
        END
    END
END;

PROCEDURE NODIGITS;
BEGIN
  DFIRST := UNITS + 1;
  DLAST := UNITS;
  STICKY := FALSE
END;

FUNCTION TENPOWER(N: INTEGER): REAL;
VAR
  FITTING: 0..37;
BEGIN
  {$R+} FITTING := N; {$R-}              { error 1: PWROFTEN has a number from 0 to 37 }
  NODIGITS;
  PUTDIGIT(1, -N);
  TENPOWER := ROLLUP(0)
END;

{ The REAL that N characters of NUMERAL are, of which the first may be a sign }
FUNCTION REALWRITTEN(N: INTEGER): REAL;
VAR
  I, PLACE, E, SIGN: INTEGER;
  HASPOINT, ISLESS: BOOLEAN;
BEGIN
  I := 1;
  PLACE := 1;
  SIGN := 0;
  IF N > 0 THEN
    IF NUMERAL[1] = '-' THEN SIGN := LOWEST;
  HASPOINT := FALSE;
  NUMERAL[N + 1] := 'E';
  NUMERAL[N + 2] := '0';
  WHILE NUMERAL[I] <> 'E' DO             { how many digits are in front of the point }
    BEGIN
      IF NUMERAL[I] = '.' THEN HASPOINT := TRUE
      ELSE IF (NUMERAL[I] >= '0') AND NOT HASPOINT THEN PLACE := PLACE - 1;
      I := I + 1
    END;
  I := I + 1;
  ISLESS := NUMERAL[I] = '-';
  E := 0;
  FOR I := I + ORD(NUMERAL[I] < '0') TO N DO
    IF E < 999 THEN E := 10 * E + ORD(NUMERAL[I]) - 48;
  IF ISLESS THEN E := -E;
  PLACE := PLACE - E;
  NODIGITS;
  I := 1;
  WHILE NUMERAL[I] <> 'E' DO
    BEGIN
      IF NUMERAL[I] >= '0' THEN
        BEGIN
          PUTDIGIT(ORD(NUMERAL[I]) - 48, PLACE);
          PLACE := PLACE + 1
        END;
      I := I + 1
    END;
  REALWRITTEN := ROLLUP(SIGN)
END;

{ Blanks and ends of lines are passed over. The character behind the number is read too, and stays.
  0 where no number stands }
FUNCTION READREAL(F: INTEGER): REAL;
VAR
  N, POINT, POWER: INTEGER;
  C, LAST: CHAR;
  GOING: BOOLEAN;
BEGIN
  IF NOT ISFULL[F] THEN NEXTKEY(F);
  WHILE ((WINDOW[F] = ' ') OR ISBACK(F, 0)) AND NOT ISEOF[F] DO NEXTKEY(F);
  N := 0;
  POINT := 0;                            { where it and the E stand in NUMERAL }
  POWER := 0;
  REPEAT
    GOING := TRUE;
    C := WINDOW[F];
    LAST := 'E';                         { a sign may come }
    IF N > 0 THEN LAST := NUMERAL[N];
    IF ISBACK(F, N) THEN
      BEGIN
        IF N = POINT THEN POINT := 0;
        IF N = POWER THEN POWER := 0;
        IF N > 0 THEN N := N - 1
      END
    ELSE
      BEGIN
        IF C = 'e' THEN C := 'E';
        IF (C = '+') OR (C = '-') THEN GOING := LAST = 'E'
        ELSE IF C = '.' THEN
          BEGIN
            GOING := (POINT = 0) AND (POWER = 0);
            IF GOING THEN POINT := N + 1
          END
        ELSE IF C = 'E' THEN
          BEGIN
            GOING := (POWER = 0) AND (LAST <> 'E') AND (LAST <> '-') AND (LAST <> '+');
            IF GOING THEN POWER := N + 1
          END
        ELSE GOING := (C >= '0') AND (C <= '9');
        IF GOING AND (N < 78) THEN
          BEGIN
            N := N + 1;
            NUMERAL[N] := C
          END
      END;
    IF GOING THEN NEXTKEY(F)
  UNTIL NOT GOING;
  READREAL := REALWRITTEN(N)
END;

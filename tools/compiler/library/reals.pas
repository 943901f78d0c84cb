{ REAL: two words, of which the second has the sign, 8 bits of exponent and the
  highest 7 bits behind the point, and the first has the other 16. The exponent
  is 127 above the power of 2, and the bit in front of the point is not stored.
  0 is two words of 0, and there is no other number with the exponent 0.

  The procedures take the words of their operands, the second of each first.
  Sums have 12 bits in a word, products 6, so that no sum of products has more
  than 15. ORD(ODD(A) AND ODD(B)) is of all bits. REALOF makes a REAL of two
  words; the library alone knows it. }
{$R-}
CONST
  LOWEST = -32768;
  HALFWAY = 2048;                { of the 12 bits behind those that stay }
  POWERBITS = 32640;             { its bits in the second word }

TYPE
  CELL = RECORD CASE BOOLEAN OF TRUE: (R: REAL); FALSE: (L, H: INTEGER) END;

{ A number of its sign, 0 or LOWEST, its exponent as it is stored, 24 bits in two
  parts, of which the first bit is 1, and 12 bits that are rounded }
FUNCTION ROUNDED(SIGN, E, HIGH, LOW, REST: INTEGER): REAL;
VAR
  H, L: INTEGER;
  FITTING: -32768..32639;
BEGIN
  IF E > 254 THEN E := 255;
  IF E < 0 THEN H := 0
  ELSE
    BEGIN
      H := 128 * E + HIGH DIV 16 - 128;
      L := 4096 * HIGH + LOW;
      IF REST >= HALFWAY THEN
        IF (REST > HALFWAY) OR ODD(LOW) THEN
          BEGIN
            L := L + 1;
            IF L = 0 THEN H := H + 1
          END
    END;
  IF H < 128 THEN ROUNDED := REALOF(0, 0)
  ELSE
    BEGIN
      {$R+} FITTING := H; {$R-}          { error 1: the REAL is too great }
      ROUNDED := REALOF(H + SIGN, L)
    END
END;

FUNCTION FLOATED(N: INTEGER): REAL;
VAR
  E, K, SIGN: INTEGER;
BEGIN
  SIGN := 0;
  IF N < 0 THEN SIGN := LOWEST;
  K := ABS(N);
  E := 141;
  IF K = LOWEST THEN FLOATED := REALOF(LOWEST + 18176, 0)
  ELSE IF K = 0 THEN FLOATED := REALOF(0, 0)
  ELSE
    BEGIN
      IF K < 128 THEN
        BEGIN
          K := 128 * K;
          E := E - 7
        END;
      WHILE K < 16384 DO
        BEGIN
          K := K + K;
          E := E - 1
        END;
      FLOATED := REALOF(SIGN + 128 * E + K DIV 128 - 128, 512 * K)
    END
END;

FUNCTION ADDREALS(AH, AL, BH, BL: INTEGER): REAL;
VAR
  A, B, D, E, LOW, HIGH, REST, P: INTEGER;
BEGIN
  A := ORD(ODD(AH) AND ODD(MAXINT));
  B := ORD(ODD(BH) AND ODD(MAXINT));
  IF (A < B) OR (A = B) AND (AL + LOWEST < BL + LOWEST) THEN
    BEGIN                                { the greater one first }
      D := A; A := B; B := D;
      D := AH; AH := BH; BH := D;
      D := AL; AL := BL; BL := D
    END;
  E := A DIV 128;
  D := E - B DIV 128;
  IF (D > 25) OR (B = 0) THEN ADDREALS := REALOF(AH, AL)
  ELSE
    BEGIN
      HIGH := HALFWAY + 16 * ORD(ODD(B) AND ODD(127))
        + ORD(ODD(ORD(ODD(BL) AND ODD(-4096)) DIV 4096) AND ODD(15));
      LOW := ORD(ODD(BL) AND ODD(4095));
      REST := 0;
      IF D > 11 THEN
        BEGIN
          IF D > 23 THEN
            BEGIN
              REST := ORD(LOW <> 0);
              LOW := HIGH; HIGH := 0;
              D := D - 12
            END;
          REST := ORD(ODD(LOW) OR ODD(REST));
          LOW := HIGH; HIGH := 0;
          D := D - 12
        END;
      IF D > 0 THEN
        BEGIN
          CASE D OF
            1: P := 2;    2: P := 4;    3: P := 8;     4: P := 16;   5: P := 32;  6: P := 64;
            7: P := 128;  8: P := 256;  9: P := 512;  10: P := 1024; 11: P := 2048
          END;
          B := ORD(ODD(REST) AND ODD(P - 1));
          D := 4096 DIV P;
          REST := REST DIV P + D * ORD(ODD(LOW) AND ODD(P - 1));
          LOW := LOW DIV P + D * ORD(ODD(HIGH) AND ODD(P - 1));
          HIGH := HIGH DIV P;
          IF B > 0 THEN REST := ORD(ODD(REST) OR ODD(1))
        END;
      A := HALFWAY + 16 * ORD(ODD(A) AND ODD(127))
        + ORD(ODD(ORD(ODD(AL) AND ODD(-4096)) DIV 4096) AND ODD(15));
      IF (AH < 0) = (BH < 0) THEN
        BEGIN
          LOW := ORD(ODD(AL) AND ODD(4095)) + LOW;
          HIGH := A + HIGH + LOW DIV 4096;
          LOW := ORD(ODD(LOW) AND ODD(4095));
          IF HIGH > 4095 THEN
            BEGIN
              REST := ORD(ODD(REST DIV 2) OR ODD(REST) AND ODD(1))
                + HALFWAY * ORD(ODD(LOW) AND ODD(1));
              LOW := LOW DIV 2 + HALFWAY * ORD(ODD(HIGH) AND ODD(1));
              HIGH := HIGH DIV 2;
              E := E + 1
            END
        END
      ELSE
        BEGIN
          LOW := ORD(ODD(AL) AND ODD(4095)) - LOW;
          HIGH := A - HIGH;
          IF REST > 0 THEN
            BEGIN
              REST := 4096 - REST;
              LOW := LOW - 1
            END;
          IF LOW < 0 THEN
            BEGIN
              LOW := LOW + 4096;
              HIGH := HIGH - 1
            END;
          IF HIGH = 0 THEN
            BEGIN
              HIGH := LOW; LOW := REST; REST := 0;
              E := E - 12;
              IF HIGH = 0 THEN
                BEGIN
                  HIGH := LOW; LOW := 0;
                  E := E - 12
                END
            END;
          P := 1;
          IF HIGH > 0 THEN
            WHILE HIGH < HALFWAY DO
              BEGIN
                HIGH := HIGH + HIGH;
                P := P + P;
                E := E - 1
              END
          ELSE E := -1;
          IF P > 1 THEN
            BEGIN
              D := 4096 DIV P;
              HIGH := HIGH + LOW DIV D;
              LOW := P * ORD(ODD(LOW) AND ODD(D - 1)) + REST DIV D;
              REST := P * ORD(ODD(REST) AND ODD(D - 1))
            END
        END;
      ADDREALS := ROUNDED(ORD(ODD(AH) AND ODD(LOWEST)), E, HIGH, LOW, REST)
    END
END;

FUNCTION SUBREALS(AH, AL, BH, BL: INTEGER): REAL;
BEGIN
  SUBREALS := ADDREALS(AH, AL, BH + LOWEST, BL)
END;

FUNCTION MULREALS(AH, AL, BH, BL: INTEGER): REAL;
VAR
  A0, A1, A2, A3, B0, B1, B2, B3, HIGH, LOW, REST, E, S, T: INTEGER;
BEGIN
  E := ORD(ODD(AH) AND ODD(POWERBITS));
  T := ORD(ODD(BH) AND ODD(POWERBITS));
  IF (E = 0) OR (T = 0) THEN MULREALS := REALOF(0, 0)
  ELSE
    BEGIN
      E := E DIV 128 + T DIV 128 - 126;
      A0 := ORD(ODD(AL) AND ODD(63));
      A1 := ORD(ODD(AL) AND ODD(4032)) DIV 64;
      A2 := 16 * ORD(ODD(AH) AND ODD(3))
        + ORD(ODD(ORD(ODD(AL) AND ODD(-4096)) DIV 4096) AND ODD(15));
      A3 := ORD(ODD(AH) AND ODD(124)) DIV 4 + 32;
      B0 := ORD(ODD(BL) AND ODD(63));
      B1 := ORD(ODD(BL) AND ODD(4032)) DIV 64;
      B2 := 16 * ORD(ODD(BH) AND ODD(3))
        + ORD(ODD(ORD(ODD(BL) AND ODD(-4096)) DIV 4096) AND ODD(15));
      B3 := ORD(ODD(BH) AND ODD(124)) DIV 4 + 32;
      T := A0 * B0;
      S := ORD(ODD(T) AND ODD(63));
      T := T DIV 64 + A0 * B1 + A1 * B0;
      S := S + ORD(ODD(T) AND ODD(63));
      T := T DIV 64 + A0 * B2 + A1 * B1 + A2 * B0;
      S := S + ORD(ODD(T) AND ODD(63));
      T := T DIV 64 + A0 * B3 + A1 * B2 + A2 * B1 + A3 * B0;
      REST := 64 * ORD(ODD(T) AND ODD(63)) + ORD(S > 0);
      T := T DIV 64 + A1 * B3 + A2 * B2 + A3 * B1;
      LOW := ORD(ODD(T) AND ODD(63));
      T := T DIV 64 + A2 * B3 + A3 * B2;
      LOW := LOW + 64 * ORD(ODD(T) AND ODD(63));
      HIGH := T DIV 64 + A3 * B3;
      IF HIGH < HALFWAY THEN
        BEGIN
          HIGH := HIGH + HIGH + LOW DIV HALFWAY;
          LOW := 2 * ORD(ODD(LOW) AND ODD(2047)) + REST DIV HALFWAY;
          REST := 2 * ORD(ODD(REST) AND ODD(2047));
          E := E - 1
        END;
      S := 0;
      IF (AH < 0) <> (BH < 0) THEN S := LOWEST;
      MULREALS := ROUNDED(S, E, HIGH, LOW, REST)
    END
END;

{ Four digits of the quotient, of base 64, one after the other from the highest 12 bits of what is
  left and of the divisor. None is too great, and one may be 1 too small: then more than the divisor
  is left, and the next digit has more than 6 bits. A quotient never lies halfway }
FUNCTION DIVREALS(AH, AL, BH, BL: INTEGER): REAL;
VAR
  R0, R1, R2, R3, B0, B1, B2, B3, E, Q, T, U, HIGH, LOW, TOP, STEP: INTEGER;
BEGIN
  E := ORD(ODD(AH) AND ODD(POWERBITS));
  T := ORD(ODD(BH) AND ODD(POWERBITS));
  IF T = 0 THEN T := 1 DIV T;            { error 6: a division by 0 }
  IF E = 0 THEN DIVREALS := REALOF(0, 0)
  ELSE
    BEGIN
      E := E DIV 128 - T DIV 128 + 126;
      R0 := ORD(ODD(AL) AND ODD(63));
      R1 := ORD(ODD(AL) AND ODD(4032)) DIV 64;
      R2 := 16 * ORD(ODD(AH) AND ODD(3))
        + ORD(ODD(ORD(ODD(AL) AND ODD(-4096)) DIV 4096) AND ODD(15));
      R3 := ORD(ODD(AH) AND ODD(124)) DIV 4 + 32;
      B0 := ORD(ODD(BL) AND ODD(63));
      B1 := ORD(ODD(BL) AND ODD(4032)) DIV 64;
      B2 := 16 * ORD(ODD(BH) AND ODD(3))
        + ORD(ODD(ORD(ODD(BL) AND ODD(-4096)) DIV 4096) AND ODD(15));
      B3 := ORD(ODD(BH) AND ODD(124)) DIV 4 + 32;
      TOP := (64 * B3 + B2) DIV 16 + 1;
      LOW := 0;
      FOR STEP := 1 TO 2 DO
        BEGIN
          HIGH := LOW;
          Q := 4 * (64 * R3 + R2) DIV TOP;
          T := 8192 - Q * B0;
          U := 8064 + R0 - Q * B1 + T DIV 64;
          R0 := ORD(ODD(T) AND ODD(63));
          T := 8064 + R1 - Q * B2 + U DIV 64;
          R1 := ORD(ODD(U) AND ODD(63));
          U := 8064 + R2 - Q * B3 + T DIV 64;
          R2 := ORD(ODD(T) AND ODD(63));
          R3 := U + 64 * (R3 - 128);
          LOW := 64 * Q;
          Q := 4 * (64 * R3 + R2) DIV TOP;
          T := 8192 - Q * B0;
          U := 8064 + R0 - Q * B1 + T DIV 64;
          R0 := ORD(ODD(T) AND ODD(63));
          T := 8064 + R1 - Q * B2 + U DIV 64;
          R1 := ORD(ODD(U) AND ODD(63));
          U := 8064 + R2 - Q * B3 + T DIV 64;
          R2 := ORD(ODD(T) AND ODD(63));
          R3 := U + 64 * (R3 - 128);
          LOW := LOW + Q
        END;
      T := 64 * R3 + R2;
      U := 64 * R1 + R0;
      B3 := 64 * B3 + B2;
      B1 := 64 * B1 + B0;
      IF (T > B3) OR (T = B3) AND (U >= B1) THEN
        BEGIN
          LOW := LOW + 1;
          T := T - B3;
          U := U - B1;
          IF U < 0 THEN
            BEGIN
              U := U + 4096;
              T := T - 1
            END
        END;
      HIGH := HIGH + LOW DIV 4096;
      LOW := ORD(ODD(LOW) AND ODD(4095));
      Q := 0;
      IF HIGH > 4095 THEN
        BEGIN
          IF ODD(LOW) THEN Q := HALFWAY + 1;
          LOW := LOW DIV 2 + HALFWAY * ORD(ODD(HIGH) AND ODD(1));
          HIGH := HIGH DIV 2;
          E := E + 1
        END
      ELSE
        BEGIN
          U := U + U;
          T := T + T + U DIV 4096;
          U := ORD(ODD(U) AND ODD(4095));
          IF (T > B3) OR (T = B3) AND (U > B1) THEN Q := HALFWAY + 1
        END;
      T := 0;
      IF (AH < 0) <> (BH < 0) THEN T := LOWEST;
      DIVREALS := ROUNDED(T, E, HIGH, LOW, Q)
    END
END;

{ Below 0, 0 or above 0, as A is below, equal to or above B }
FUNCTION COMPAREREALS(AH, AL, BH, BL: INTEGER): INTEGER;
VAR
  D: INTEGER;
BEGIN
  D := ORD(AL + LOWEST > BL + LOWEST) - ORD(AL + LOWEST < BL + LOWEST);
  IF AH <> BH THEN D := ORD(AH > BH) - ORD(AH < BH);
  IF ORD(ODD(AH) AND ODD(BH)) < 0 THEN D := -D;
  COMPAREREALS := D
END;

FUNCTION NEGATED(H, L: INTEGER): REAL;
BEGIN
  IF H = 0 THEN NEGATED := REALOF(0, 0) ELSE NEGATED := REALOF(H + LOWEST, L)
END;

FUNCTION WITHOUTSIGN(H, L: INTEGER): REAL;
BEGIN
  WITHOUTSIGN := REALOF(ORD(ODD(H) AND ODD(MAXINT)), L)
END;

FUNCTION SQUARED(H, L: INTEGER): REAL;
BEGIN
  SQUARED := MULREALS(H, L, H, L)
END;

{ The whole part; with a HALF of 1 the nearest number, of two the one that is farther from 0 }
FUNCTION WHOLE(H, L, HALF: INTEGER): INTEGER;
VAR
  E, K, P: INTEGER;
  FITTING: 0..MAXINT;
BEGIN
  E := ORD(ODD(H) AND ODD(POWERBITS)) DIV 128;
  K := 0;
  IF E = 126 THEN K := HALF
  ELSE IF E > 126 THEN
    BEGIN
      K := 16384 + 128 * ORD(ODD(H) AND ODD(127))
        + ORD(ODD(ORD(ODD(L) AND ODD(-512)) DIV 512) AND ODD(127));
      IF E < 141 THEN
        BEGIN
          P := 1;
          WHILE E < 140 DO
            BEGIN
              P := P + P;
              E := E + 1
            END;
          K := (K DIV P + HALF) DIV 2
        END
      ELSE
        BEGIN
          P := ORD(ODD(L) AND ODD(256 * HALF)) DIV 256;
          IF E > 141 THEN
            BEGIN                        { -32768 and a part of 1 }
              K := MAXINT;
              P := 2;
              IF (H = 18176 + LOWEST) AND (L >= 0) AND (L < 256 - 128 * HALF) THEN P := 1
            END;
          E := MAXINT - K - P;
          IF H < 0 THEN E := E + 1;
          {$R+} FITTING := E; {$R-}      { error 1: the REAL is outside the INTEGERs }
          K := K + P
        END
    END;
  IF H < 0 THEN K := -K;
  WHOLE := K
END;

{ SQRT, SIN, COS, ATAN, EXP, LN and LOG of a REAL. SQRT is the nearest REAL, and
  the others are at most one place of the last bit away from it. The series and
  their numbers are those of fdlibm's functions for 32 bits. }
{$R-}
TYPE
  LIMBS = ARRAY[-1..20] OF INTEGER;      { six bits each }

VAR
  ANGLE, ANGLEREST: REAL;                { what is left of an angle, in two parts }

{ The root, two bits of the number after the other: it is the nearest REAL }
FUNCTION ROOT(H, L: INTEGER): REAL;
VAR
  I, E, W, NEXT, Q, QLOW, R, RLOW, T, TLOW: INTEGER;
  FITTING: 0..MAXINT;
BEGIN
  {$R+} FITTING := H; {$R-}              { error 1: the root of a number below 0 }
  E := H DIV 128;
  IF E = 0 THEN ROOT := REALOF(0, 0)
  ELSE
    BEGIN
      W := HALFWAY + 16 * ORD(ODD(H) AND ODD(127))
        + ORD(ODD(ORD(ODD(L) AND ODD(-4096)) DIV 4096) AND ODD(15));
      L := ORD(ODD(L) AND ODD(4095));
      NEXT := 0;
      IF ODD(E) THEN
        BEGIN
          NEXT := HALFWAY * ORD(ODD(L) AND ODD(1));
          L := L DIV 2 + HALFWAY * ORD(ODD(W) AND ODD(1));
          W := W DIV 2
        END;
      Q := 0; QLOW := 0; R := 0; RLOW := 0;
      FOR I := 1 TO 24 DO
        BEGIN
          IF I = 7 THEN W := L
          ELSE IF I = 13 THEN W := NEXT
          ELSE IF I = 19 THEN W := 0;
          RLOW := 4 * RLOW + W DIV 1024;
          W := 4 * ORD(ODD(W) AND ODD(1023));
          R := 4 * R + RLOW DIV 4096;
          RLOW := ORD(ODD(RLOW) AND ODD(4095));
          T := 4 * Q + QLOW DIV 1024;
          TLOW := 4 * ORD(ODD(QLOW) AND ODD(1023)) + 1;
          QLOW := QLOW + QLOW;
          Q := Q + Q + QLOW DIV 4096;
          QLOW := ORD(ODD(QLOW) AND ODD(4095));
          IF (R > T) OR (R = T) AND (RLOW >= TLOW) THEN
            BEGIN
              QLOW := QLOW + 1;
              R := R - T;
              RLOW := RLOW - TLOW;
              IF RLOW < 0 THEN
                BEGIN
                  RLOW := RLOW + 4096;
                  R := R - 1
                END
            END
        END;
      T := 0;
      IF (R > Q) OR (R = Q) AND (RLOW > QLOW) THEN T := HALFWAY + 1;
      ROOT := ROUNDED(0, (E + 127) DIV 2, Q, QLOW, T)
    END
END;

{ ((A * 64 + B) * 64 + C) * 64 + D, by 2 to the power of E }
FUNCTION OFLIMBS(A, B, C, D, E: INTEGER): REAL;
VAR
  HIGH, LOW: INTEGER;
BEGIN
  HIGH := 64 * A + B;
  LOW := 64 * C + D;
  IF HIGH + LOW = 0 THEN E := -1
  ELSE
    BEGIN
      E := E + 150;
      WHILE HIGH < HALFWAY DO
        BEGIN
          LOW := LOW + LOW;
          HIGH := HIGH + HIGH + LOW DIV 4096;
          LOW := ORD(ODD(LOW) AND ODD(4095));
          E := E - 1
        END
    END;
  OFLIMBS := ROUNDED(0, E, HIGH, LOW, 0)
END;

{ ANGLE and ANGLEREST become what is left of an angle above 0 behind a whole
  number of quarters of the circle, at most half a quarter in size; that number.
  The angle is multiplied by 2 / pi, of which so many limbs are taken as count:
  those above give whole circles. What is left is then multiplied by pi / 2 }
FUNCTION QUARTERS(H, L: INTEGER): INTEGER;
VAR
  G, M: LIMBS;
  C, I, J, K, P, T: INTEGER;
  ISLESS: BOOLEAN;
  PIPART: PACKED ARRAY[1..40] OF CHAR;   { 2 / pi behind five limbs of 0; a limb is 32 less }
  PIHALF: PACKED ARRAY[0..9] OF CHAR;
BEGIN
  PIPART := '     HOF#;DY$%2G\)U?1]33=P-MBE9D\0Y!!_E%';
  PIHALF := '!DA^U1$+1A';
  K := ORD(ODD(H) AND ODD(POWERBITS)) DIV 128 - 126;
  P := 1;
  FOR I := 1 TO K MOD 6 DO P := P + P;
  K := K DIV 6 + 1;
  M[0] := P * ORD(ODD(L) AND ODD(63));
  M[1] := P * (ORD(ODD(L) AND ODD(4032)) DIV 64);
  M[2] := P * (16 * ORD(ODD(H) AND ODD(3))
    + ORD(ODD(ORD(ODD(L) AND ODD(-4096)) DIV 4096) AND ODD(15)));
  M[3] := P * (ORD(ODD(H) AND ODD(124)) DIV 4 + 32);
  FOR I := 0 TO 3 DO
    BEGIN
      M[I + 1] := ORD(I < 3) * M[I + 1] + M[I] DIV 64;
      M[I] := ORD(ODD(M[I]) AND ODD(63))
    END;
  T := 0;
  FOR C := 12 DOWNTO 0 DO
    BEGIN
      T := T DIV 64;
      FOR J := 0 TO 4 DO T := T + M[J] * (ORD(PIPART[J + K + C]) - 32);
      G[C] := ORD(ODD(T) AND ODD(63))
    END;
  P := G[0] MOD 4;
  FOR I := 13 TO 20 DO G[I] := 0;
  ISLESS := G[1] > 31;
  IF ISLESS THEN
    BEGIN
      P := (P + 1) MOD 4;
      FOR I := 1 TO 12 DO G[I] := 63 - G[I]
    END;
  K := 1;
  WHILE (G[K] = 0) AND (K < 12) DO K := K + 1;
  T := 0;
  FOR C := 8 DOWNTO 0 DO
    BEGIN
      T := T DIV 64;
      FOR I := 0 TO C DO T := T + G[K + I] * (ORD(PIHALF[C - I]) - 32);
      M[C] := ORD(ODD(T) AND ODD(63))
    END;
  M[-1] := T DIV 64;
  I := -ORD(M[-1] > 0);
  ANGLE := OFLIMBS(M[I], M[I + 1], M[I + 2], M[I + 3], -6 * (K + I + 3));
  ANGLEREST := OFLIMBS(M[I + 4], M[I + 5], M[I + 6], M[I + 7], -6 * (K + I + 7));
  IF ISLESS THEN
    BEGIN
      ANGLE := -ANGLE;
      ANGLEREST := -ANGLEREST
    END;
  QUARTERS := P
END;

FUNCTION SINEPART: REAL;         { of ANGLE and ANGLEREST }
VAR
  V, Z: REAL;
BEGIN
  Z := ANGLE * ANGLE;
  V := Z * ANGLE;
  SINEPART := ANGLE - ((Z * (0.5 * ANGLEREST - V * (0.00833332938588946
    + Z * (-0.000198393348360966 + Z * 0.0000027183114939898))) - ANGLEREST)
    + V * 0.166666666416265)
END;

FUNCTION COSINEPART: REAL;
VAR
  HALF, W, Z: REAL;
BEGIN
  Z := ANGLE * ANGLE;
  HALF := 0.5 * Z;
  W := 1 - HALF;
  COSINEPART := W + (((1 - W) - HALF) + (Z * Z * (0.0416666666666667
    + Z * (-0.00138888888888741 + Z * (0.0000248015872894767 - Z * 2.75573143513907E-7)))
    - ANGLE * ANGLEREST))
END;

{ SIN of X and N quarters more }
FUNCTION SINEOF(X: REAL; N: INTEGER): REAL;
VAR
  C: CELL;
  Y: REAL;
BEGIN
  C.R := X;
  ANGLE := X;
  ANGLEREST := 0;
  IF ORD(ODD(C.H) AND ODD(MAXINT)) >= 16128 THEN  { 0.5 }
    IF C.H < 0 THEN
      BEGIN
        N := N + 4 - QUARTERS(C.H, C.L);
        ANGLE := -ANGLE;
        ANGLEREST := -ANGLEREST
      END
    ELSE N := N + QUARTERS(C.H, C.L);
  IF ODD(N) THEN Y := COSINEPART ELSE Y := SINEPART;
  IF N MOD 4 > 1 THEN Y := -Y;
  SINEOF := Y
END;

FUNCTION SINE(X: REAL): REAL;
BEGIN
  SINE := SINEOF(X, 0)
END;

FUNCTION COSINE(X: REAL): REAL;
BEGIN
  COSINE := SINEOF(X, 1)
END;

FUNCTION ARCTANGENT(X: REAL): REAL;
VAR
  A, T, W, Z, HIGH, LOW: REAL;
BEGIN
  A := ABS(X);
  HIGH := 0;
  LOW := 0;
  IF A < 0.4375 THEN T := A
  ELSE IF A < 0.6875 THEN
    BEGIN
      HIGH := 0.46364760399; LOW := 5.0121582440E-9;
      T := (A + A - 1) / (A + 2)
    END
  ELSE IF A < 1.1875 THEN
    BEGIN
      HIGH := 0.78539812565; LOW := 3.7748947079E-8;
      T := (A - 1) / (A + 1)
    END
  ELSE IF A < 2.4375 THEN
    BEGIN
      HIGH := 0.98279368877; LOW := 3.4473217170E-8;
      T := (A - 1.5) / (1 + 1.5 * A)
    END
  ELSE
    BEGIN
      HIGH := 1.5707962513; LOW := 7.5497894159E-8;
      T := -1 / A
    END;
  Z := T * T;
  W := Z * Z;
  Z := T * (Z * (0.33333328366 + W * (0.14253635705 + W * 0.061687607318))
    + W * (-0.19999158382 - W * 0.10648017377));
  IF HIGH = 0 THEN T := T - Z ELSE T := HIGH - ((Z - LOW) - T);
  IF X < 0 THEN T := -T;
  ARCTANGENT := T
END;

FUNCTION EXPONENTIAL(X: REAL): REAL;
VAR
  K: INTEGER;
  T, Y, HIGH, LOW: REAL;
  C: CELL;
  FITTING: -999..254;
BEGIN
  IF X > 100 THEN X := 100;
  IF X < -100 THEN X := -100;
  K := ROUND(X * 1.4426950216);
  HIGH := X - K * 0.69314575195;
  LOW := K * 1.4286067653E-6;
  Y := HIGH - LOW;
  T := Y * Y;
  T := Y - T * (0.16666625440 - T * 0.0027667332906);
  C.R := 1 - ((LOW - Y * T / (2 - T)) - HIGH);
  {$R+} FITTING := C.H DIV 128 + K; {$R-}  { error 1: the REAL is too great }
  IF FITTING < 1 THEN EXPONENTIAL := 0 ELSE EXPONENTIAL := REALOF(C.H + 128 * K, C.L)
END;

{ LN of 1 + F, without F, but with its HALF: half its square }
FUNCTION LOGPART(F, HALF: REAL): REAL;
VAR
  S, W, Z: REAL;
BEGIN
  S := F / (2 + F);
  Z := S * S;
  W := Z * Z;
  LOGPART := S * (HALF + (Z * (0.66666662693 + W * 0.28498786688)
    + W * (0.40000972152 + W * 0.24279078841)))
END;

{ A number above 0 as a power of 2 and what it is multiplied by, from the root of a half to the
  root of 2, less 1 }
FUNCTION PARTOF(X: REAL; VAR K: INTEGER): REAL;
VAR
  C: CELL;
  FITTING: 1..MAXINT;
BEGIN
  C.R := X;
  {$R+} FITTING := C.H; {$R-}            { error 1: the logarithm of 0 or of less }
  K := C.H DIV 128 - 127;
  C.H := C.H - 128 * K;
  IF C.R > 1.4142135 THEN
    BEGIN
      C.H := C.H - 128;
      K := K + 1
    END;
  PARTOF := C.R - 1
END;

FUNCTION LOGARITHM(X: REAL): REAL;
VAR
  K: INTEGER;
  F, HALF, R: REAL;
BEGIN
  F := PARTOF(X, K);
  HALF := 0.5 * F * F;
  R := LOGPART(F, HALF);
  IF K = 0 THEN LOGARITHM := F - (HALF - R)
  ELSE LOGARITHM := K * 0.69313812256 - ((HALF - (R + K * 9.0580006145E-6)) - F)
END;

FUNCTION LOGTEN(X: REAL): REAL;
VAR
  K: INTEGER;
  F, HALF, LOW: REAL;
  C: CELL;
BEGIN
  F := PARTOF(X, K);
  HALF := 0.5 * F * F;
  C.R := F - HALF;
  C.L := ORD(ODD(C.L) AND ODD(-4096));
  LOW := ((F - C.R) - HALF) + LOGPART(F, HALF);
  LOGTEN := K * 7.9034151668E-7 - (LOW + C.R) * 3.1689971365E-5 + LOW * 0.43432617188
    + C.R * 0.43432617188 + K * 0.30102920532
END;

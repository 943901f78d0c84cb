{ RANDOM, RANDOMIZE and TIME. All nodes of a group have to see the same, so they
  come of what was called and typed, and of no clock. The numbers are those of
  three generators of Wichmann and Hill (1982), added. }
{$R-}
VAR
  CHANCE1, CHANCE2, CHANCE3: INTEGER;
  TICKSHIGH, TICKSLOW: INTEGER;

{ The next number of a generator: A times N, by the rest to P, which is A * Q + R }
FUNCTION NEXTCHANCE(N, A, Q, R, P: INTEGER): INTEGER;
BEGIN
  N := A * (N MOD Q) - R * (N DIV Q);
  IF N < 0 THEN N := N + P;
  NEXTCHANCE := N
END;

FUNCTION RANDOMNUMBER: INTEGER;
BEGIN
  IF CHANCE1 = 0 THEN
    BEGIN
      CHANCE1 := 1982;
      CHANCE2 := 31;
      CHANCE3 := 188
    END;
  CHANCE1 := NEXTCHANCE(CHANCE1, 171, 177, 2, 30269);
  CHANCE2 := NEXTCHANCE(CHANCE2, 172, 176, 35, 30307);
  CHANCE3 := NEXTCHANCE(CHANCE3, 170, 178, 63, 30323);
  RANDOMNUMBER := ORD(ODD(3 * CHANCE1 + 5 * CHANCE2 + 7 * CHANCE3) AND ODD(MAXINT))
END;

PROCEDURE RESEED;                { by the keys that READ has read so far }
BEGIN
  CHANCE1 := ORD(ODD(KEYSREAD) AND ODD(16383)) + 1;
  CHANCE2 := ORD(ODD(KEYSREAD) AND ODD(8191)) + 4096;
  CHANCE3 := ORD(ODD(KEYSREAD DIV 8) AND ODD(4095)) + 188
END;

PROCEDURE TICK;                  { TIME counts its calls }
BEGIN
  TICKSLOW := TICKSLOW + 1;
  IF TICKSLOW = 0 THEN TICKSHIGH := TICKSHIGH + 1
END;

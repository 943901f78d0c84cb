PROGRAM SIEVE;
{ Prints the primes below 1000, one a line. A line ends in LF (10), as
  terminals have it; the p-System had CR (13). }
CONST
  CONSOLE = 1;
  LF = 10;
  LAST = 999;
  ROOT = 31;                   { the square of 32 is above LAST }
VAR
  N: INTEGER;
  STRUCK: ARRAY[2..LAST] OF BOOLEAN;

PROCEDURE PUT(C: CHAR);
BEGIN
  UNITWRITE(CONSOLE, C, 1)
END;

PROCEDURE PRINT(N: INTEGER);   { -32768 too, which has no opposite }
BEGIN
  IF N DIV 10 <> 0 THEN PRINT(N DIV 10)
  ELSE IF N < 0 THEN PUT('-');
  PUT(CHR(ABS(N MOD 10) + ORD('0')))
END;

PROCEDURE STRIKE(P: INTEGER);  { all multiples of P from its square on }
VAR
  M: INTEGER;
BEGIN
  M := SQR(P);
  WHILE M <= LAST DO
    BEGIN
      STRUCK[M] := TRUE;
      M := M + P
    END
END;

BEGIN
  FOR N := 2 TO LAST DO
    STRUCK[N] := FALSE;
  FOR N := 2 TO LAST DO
    IF NOT STRUCK[N] THEN
      BEGIN
        PRINT(N);
        PUT(CHR(LF));
        IF N <= ROOT THEN STRIKE(N)
      END
END.

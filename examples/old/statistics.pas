PROGRAM STATISTICS;
{ Keeps measurements in a file, and works out what they say. }
TYPE
  MEASURE = RECORD
    X, Y: REAL
  END;
VAR
  F: FILE OF MEASURE;
  COUNT: INTEGER;
  COMMAND: CHAR;

PROCEDURE OPENDATA;
BEGIN
  {$I-} RESET(F, 'MEASURES'); {$I+}
  IF IORESULT <> 0 THEN
    BEGIN
      REWRITE(F, 'MEASURES');
      CLOSE(F, LOCK);
      RESET(F, 'MEASURES')
    END
END;

PROCEDURE ADD;
VAR
  M: MEASURE;
BEGIN
  WRITE('X and Y: ');
  READLN(M.X, M.Y);
  SEEK(F, COUNT);
  F^ := M;
  PUT(F);
  COUNT := COUNT + 1;
  WRITELN(COUNT, ' measurements')
END;

PROCEDURE TAKE(N: INTEGER; VAR M: MEASURE);
BEGIN
  SEEK(F, N);
  GET(F);
  M := F^
END;

PROCEDURE LIST;
VAR
  I: INTEGER;
  M: MEASURE;
BEGIN
  FOR I := 0 TO COUNT - 1 DO
    BEGIN
      TAKE(I, M);
      WRITELN(I + 1:4, M.X:12:3, M.Y:12:3)
    END
END;

{ The line through the measurements, by the least squares }
PROCEDURE SUMMARY;
VAR
  I: INTEGER;
  M: MEASURE;
  N, SX, SY, SXX, SXY, SYY, A, B, D: REAL;
BEGIN
  SX := 0; SY := 0; SXX := 0; SXY := 0; SYY := 0;
  FOR I := 0 TO COUNT - 1 DO
    BEGIN
      TAKE(I, M);
      SX := SX + M.X;
      SY := SY + M.Y;
      SXX := SXX + SQR(M.X);
      SXY := SXY + M.X * M.Y;
      SYY := SYY + SQR(M.Y)
    END;
  N := COUNT;
  IF COUNT < 2 THEN WRITELN('Two measurements are wanted at least.')
  ELSE
    BEGIN
      WRITELN('Mean of X', SX / N:12:4, '  deviation', SQRT(SXX / N - SQR(SX / N)):12:4);
      WRITELN('Mean of Y', SY / N:12:4, '  deviation', SQRT(SYY / N - SQR(SY / N)):12:4);
      D := N * SXX - SQR(SX);
      IF D = 0 THEN WRITELN('All X are the same.')
      ELSE
        BEGIN
          B := (N * SXY - SX * SY) / D;
          A := (SY - B * SX) / N;
          WRITELN('Y =', A:10:4, ' +', B:10:4, ' * X')
        END
    END
END;

{ The middle one of the sorted X: the file is sorted by exchanging its records }
PROCEDURE SORT;
VAR
  I, J: INTEGER;
  L, M: MEASURE;
BEGIN
  FOR I := 1 TO COUNT - 1 DO
    BEGIN
      TAKE(I, M);
      J := I;
      L := M;
      REPEAT
        TAKE(J - 1, L);
        IF L.X > M.X THEN
          BEGIN
            SEEK(F, J);
            F^ := L;
            PUT(F);
            J := J - 1
          END
      UNTIL (J = 0) OR (L.X <= M.X);
      SEEK(F, J);
      F^ := M;
      PUT(F)
    END;
  LIST
END;

BEGIN
  WRITELN('STATISTICS');
  OPENDATA;
  COUNT := 0;
  REPEAT
    WRITE('A(dd L(ist S(ummary O(rder Q(uit: ');
    READLN(COMMAND);
    CASE COMMAND OF
      'A', 'a': ADD;
      'L', 'l': LIST;
      'S', 's': SUMMARY;
      'O', 'o': SORT
    END
  UNTIL (COMMAND = 'Q') OR (COMMAND = 'q');
  CLOSE(F, LOCK)
END.

{ Sets of N words. ORD(ODD(A) OR ODD(B)) joins all 16 bits of two words. }
{$R-}
TYPE
  BITS = PACKED ARRAY[0..4079] OF BOOLEAN;

PROCEDURE UNITE(VAR S, T: WORDS; N: INTEGER);
VAR
  I: INTEGER;
BEGIN
  FOR I := 0 TO N - 1 DO S[I] := ORD(ODD(S[I]) OR ODD(T[I]))
END;

PROCEDURE REMOVE(VAR S, T: WORDS; N: INTEGER);
VAR
  I: INTEGER;
BEGIN
  FOR I := 0 TO N - 1 DO S[I] := ORD(ODD(S[I]) AND NOT ODD(T[I]))
END;

PROCEDURE MEET(VAR S, T: WORDS; N: INTEGER);
VAR
  I: INTEGER;
BEGIN
  FOR I := 0 TO N - 1 DO S[I] := ORD(ODD(S[I]) AND ODD(T[I]))
END;

FUNCTION WITHIN(VAR S, T: WORDS; N: INTEGER): BOOLEAN;
VAR
  I: INTEGER;
  SO: BOOLEAN;
BEGIN
  I := 0;
  REPEAT
    SO := ORD(ODD(S[I]) AND NOT ODD(T[I])) = 0;
    I := I + 1
  UNTIL (I >= N) OR NOT SO;
  WITHIN := SO
END;

FUNCTION HAS(VAR S: BITS; X, LAST: INTEGER): BOOLEAN;
BEGIN
  IF (X < 0) OR (X > LAST) THEN HAS := FALSE ELSE HAS := S[X]
END;

{ With the element A, or without it; an execution error as of INCLUDE }
PROCEDURE PUTELEMENT(VAR S: BITS; A, LAST: INTEGER; ISIN: BOOLEAN);
VAR
  LEFT: 0..MAXINT;
BEGIN
  {$R+} LEFT := A; LEFT := LAST - A; {$R-}   { error 1: the set has no such element }
  S[A] := ISIN
END;

{ All elements from A to B; an execution error if one is below 0 or above LAST }
PROCEDURE INCLUDE(VAR S: BITS; A, B, LAST: INTEGER);
VAR
  I: INTEGER;
  LEFT: 0..MAXINT;
BEGIN
  IF A <= B THEN
    BEGIN
      {$R+} LEFT := A; LEFT := LAST - B; {$R-}   { error 1: the set has no such element }
      FOR I := A TO B DO S[I] := TRUE
    END
END;

; Reads expressions, and prints what they come to. calculator.pas says it in Pascal.
; Parameters are pushed in their order, so that the last one has offset 1. A function's call pushes two
; more words behind them, of which the one at offset 1 is its result.
program CALCULAT segment 1

include numbers.inc

c = 1                           ; of CALCULATE
bad = 2

proc 5 next level 2 params 0 data 0
repeat: SLDC systerm            ; UNITREAD(SYSTERM, C, 1)
        LDA 1 c
        SLDC 0
        SLDC 1
        SLDC 0
        SLDC 0
        CSP 5
        CSP 0
        LOD 1 c                 ; UNTIL C <> ' '
        SLDC ' '
        NEQI
        FJP repeat
exit:   RNP 0

proc 6 apply level 2 params 5 data 1
apply = 1
b = 3
sign = 4
a = 5
r = 6
        SLDC 0                  ; R := 0
        STL r
        SLDL sign               ; CASE SIGN OF
        UJP case
mod:    SLDL b                  ; '%': IF B = 0 THEN BAD := TRUE ELSE R := A MOD B
        SLDC 0
        NFJ fault
        SLDL a
        SLDL b
        MODI
        STL r
        UJP end
times:  SLDL a                  ; '*': R := A * B
        SLDL b
        MPI
        STL r
        SLDL a                  ; IF (A <> 0) AND (B <> 0) THEN
        SLDC 0
        NEQI
        SLDL b
        SLDC 0
        NEQI
        LAND
        FJP end
        SLDL r                  ; IF (R DIV A <> B) OR (R DIV B <> A) THEN BAD := TRUE
        SLDL a
        DVI
        SLDL b
        NEQI
        SLDL r
        SLDL b
        DVI
        SLDL a
        NEQI
        LOR
        FJP end
        UJP fault
plus:   SLDL a                  ; '+': R := A + B
        SLDL b
        ADI
        STL r
        SLDL a                  ; IF ((A < 0) = (B < 0)) AND ((A < 0) <> (R < 0)) THEN BAD := TRUE
        SLDC 0
        LESI
        SLDL b
        SLDC 0
        LESI
        EQU 6
        UJP signs
minus:  SLDL a                  ; '-': R := A - B
        SLDL b
        SBI
        STL r
        SLDL a                  ; IF ((A < 0) <> (B < 0)) AND ((A < 0) <> (R < 0)) THEN BAD := TRUE
        SLDC 0
        LESI
        SLDL b
        SLDC 0
        LESI
        NEQ 6
signs:  SLDL a
        SLDC 0
        LESI
        SLDL r
        SLDC 0
        LESI
        NEQ 6
        LAND
        FJP end
        UJP fault
over:   SLDL b                  ; '/': IF B = 0 THEN BAD := TRUE
        SLDC 0
        NFJ fault
        SLDL b                  ; ELSE IF B = -1 THEN R := APPLY(0, '-', A)
        LDCI -1
        EFJ else
        SLDC 0
        SLDC '-'
        SLDL a
        SLDC 0
        SLDC 0
        CIP apply
        STL r
        UJP end
else:   SLDL a                  ; ELSE R := A DIV B
        SLDL b
        DVI
        STL r
        UJP end
fault:  SLDC 1
        STR 1 bad
        UJP end
;       each sign:  %     ( ) *    +    , -   . /
case:   XJP '%' '/' end mod - - - - times plus - minus - over
end:    SLDL r                  ; APPLY := R
        STL apply
exit:   RNP 1

proc 7 opposite level 2 params 2 data 1
opposite = 1
n = 3
        SLDC 0                  ; N := 0
        STL n
while:  LOD 1 c                 ; WHILE (C >= '0') AND (C <= '9') DO
        SLDC '0'
        GEQI
        LOD 1 c
        SLDC '9'
        LEQI
        LAND
        FJP result
        SLDL n                  ; N := APPLY(APPLY(N, '*', 10), '-', ORD(C) - ORD('0'))
        SLDC '*'
        SLDC 10
        SLDC 0
        SLDC 0
        CIP apply
        SLDC '-'
        LOD 1 c
        SLDC '0'
        SBI
        SLDC 0
        SLDC 0
        CIP apply
        STL n
        CIP next                ; NEXT
        UJP while
result: SLDL n                  ; OPPOSITE := N
        STL opposite
exit:   RNP 1

proc 10 factor level 4 params 2 data 2
factor = 1
n = 3
found = 4
        SLDC 0                  ; N := 0
        STL n
        SLDC 0                  ; FOUND := FALSE
        STL found
        LOD 3 c                 ; CASE C OF
        UJP case
paren:  SLDC 1                  ; '(': FOUND := TRUE
        STL found
        CIP next                ; NEXT
        SLDC 0                  ; N := EXPRESSION
        SLDC 0
        CIP expression
        STL n
        LOD 3 c                 ; IF C = ')' THEN NEXT ELSE BAD := TRUE
        SLDC ')'
        EFJ open
        CIP next
        UJP end
open:   SLDC 1
        STR 3 bad
        UJP end
minus:  SLDC 1                  ; '-': FOUND := TRUE
        STL found
        CIP next                ; NEXT
        LOD 3 c                 ; IF (C >= '0') AND (C <= '9') THEN N := OPPOSITE
        SLDC '0'
        GEQI
        LOD 3 c
        SLDC '9'
        LEQI
        LAND
        FJP else
        SLDC 0
        SLDC 0
        CIP opposite
        STL n
        UJP end
else:   SLDC 0                  ; ELSE N := APPLY(0, '-', FACTOR)
        SLDC '-'
        SLDC 0
        SLDC 0
        CIP factor
        SLDC 0
        SLDC 0
        CIP apply
        STL n
        UJP end
digit:  SLDC 1                  ; '0' to '9': FOUND := TRUE
        STL found
        SLDC 0                  ; N := APPLY(0, '-', OPPOSITE)
        SLDC '-'
        SLDC 0
        SLDC 0
        CIP opposite
        SLDC 0
        SLDC 0
        CIP apply
        STL n
        UJP end
;       each character: (  ) * + , -    . / 0     1     2     3     4     5     6     7     8     9
case:   XJP '(' '9' end paren - - - - minus - - digit digit digit digit digit digit digit digit digit digit
end:    SLDL found              ; IF NOT FOUND THEN BAD := TRUE
        LNOT
        FJP result
        SLDC 1
        STR 3 bad
result: SLDL n                  ; FACTOR := N
        STL factor
exit:   RNP 1

proc 9 term level 3 params 2 data 2
term = 1
product = 3
sign = 4
        SLDC 0                  ; PRODUCT := FACTOR
        SLDC 0
        CLP factor
        STL product
while:  LOD 2 c                 ; WHILE (C = '*') OR (C = '/') OR (C = '%') DO
        SLDC '*'
        EQUI
        LOD 2 c
        SLDC '/'
        EQUI
        LOR
        LOD 2 c
        SLDC '%'
        EQUI
        LOR
        FJP result
        LOD 2 c                 ; SIGN := C
        STL sign
        CIP next                ; NEXT
        SLDL product            ; PRODUCT := APPLY(PRODUCT, SIGN, FACTOR)
        SLDL sign
        SLDC 0
        SLDC 0
        CLP factor
        SLDC 0
        SLDC 0
        CIP apply
        STL product
        UJP while
result: SLDL product            ; TERM := PRODUCT
        STL term
exit:   RNP 1

proc 8 expression level 2 params 2 data 2
expression = 1
sum = 3
sign = 4
        SLDC 0                  ; SUM := TERM
        SLDC 0
        CLP term
        STL sum
while:  LOD 1 c                 ; WHILE (C = '+') OR (C = '-') DO
        SLDC '+'
        EQUI
        LOD 1 c
        SLDC '-'
        EQUI
        LOR
        FJP result
        LOD 1 c                 ; SIGN := C
        STL sign
        CIP next                ; NEXT
        SLDL sum                ; SUM := APPLY(SUM, SIGN, TERM)
        SLDL sign
        SLDC 0
        SLDC 0
        CLP term
        SLDC 0
        SLDC 0
        CIP apply
        STL sum
        UJP while
result: SLDL sum                ; EXPRESSION := SUM
        STL expression
exit:   RNP 1

proc 4 calculate level 1 params 0 data 3
result = 3
        CLP next                ; NEXT
while:  SLDL c                  ; WHILE C <> '.' DO
        SLDC '.'
        NFJ exit
        SLDC 0                  ; BAD := FALSE
        STL bad
        SLDC 0                  ; RESULT := EXPRESSION
        SLDC 0
        CLP expression
        STL result
rest:   SLDL c                  ; WHILE C <> CHR(LF) DO
        SLDC lf
        NFJ print
        SLDC 1                  ; BAD := TRUE
        STL bad
        CLP next                ; NEXT
        UJP rest
print:  SLDL bad                ; IF BAD THEN PUT('?')
        FJP number
        SLDC '?'
        CGP put
        UJP line
number: SLDL result             ; ELSE PRINT(RESULT)
        CGP print
line:   SLDC lf                 ; PUT(CHR(LF))
        CGP put
        CLP next                ; NEXT
        UJP while
exit:   RNP 0

proc 1 calculator level 0 params 2 data 0
        CGP calculate
exit:   RBP 0

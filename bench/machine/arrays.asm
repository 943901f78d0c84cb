; Arithmetic on the words of an array, each index checked:
; A[I] := (A[I] * 29 + A[I - 1] + I) MOD 997 for I from 1 to 999, again and again, and then the sum of all,
; modulo 9973.
program ARRAYS segment 1

include numbers.inc             ; of examples

proc 4 work level 1 params 2 data 1003
work = 1
i = 3
round = 4
sum = 5
a = 6                           ; ARRAY[0..999] OF INTEGER
last = 999
rounds = 3300
        SLDC 0                  ; FOR ROUND := 1 TO ROUNDS DO
        STL round
again:  SLDL round
        LDCI rounds
        LESI
        FJP add
        SLDL round
        SLDC 1
        ADI
        STL round
        SLDC 1                  ; FOR I := 1 TO LAST DO
        STL i
for:    SLDL i
        LDCI last
        LEQI
        FJP again
        LLA a                   ; A[I] := (A[I] * 29 + A[I - 1] + I) MOD 997
        SLDL i
        SLDC 0
        LDCI last
        CHK
        IXA 1
        LLA a
        SLDL i
        SLDC 0
        LDCI last
        CHK
        IXA 1
        SIND 0
        SLDC 29
        MPI
        LLA a
        SLDL i
        SLDC 1
        SBI
        SLDC 0
        LDCI last
        CHK
        IXA 1
        SIND 0
        ADI
        SLDL i
        ADI
        LDCI 997
        MODI
        STO
        SLDL i
        SLDC 1
        ADI
        STL i
        UJP for
add:    SLDC 0                  ; FOR I := 0 TO LAST DO SUM := (SUM + A[I]) MOD 9973
        STL i
adding: SLDL i
        LDCI last
        LEQI
        FJP done
        SLDL sum
        LLA a
        SLDL i
        IXA 1
        SIND 0
        ADI
        LDCI 9973
        MODI
        STL sum
        SLDL i
        SLDC 1
        ADI
        STL i
        UJP adding
done:   SLDL sum
        STL work
exit:   RNP 1

proc 1 arrays level 0 params 2 data 0
        SLDC 0
        SLDC 0
        CGP work
        CGP print
        SLDC lf
        CGP put
exit:   RBP 0

; Fibonacci's numbers by recursion: FIB(23) is 28657, again and again.
program RECURSE segment 1

include numbers.inc             ; of examples

proc 4 fib level 1 params 3 data 0
fib = 1
n = 3
        SLDL n                  ; IF N < 2 THEN FIB := N
        SLDC 2
        LESI
        FJP else
        SLDL n
        STL fib
        UJP exit
else:   SLDL n                  ; ELSE FIB := FIB(N - 1) + FIB(N - 2)
        SLDC 1
        SBI
        SLDC 0
        SLDC 0
        CGP fib
        SLDL n
        SLDC 2
        SBI
        SLDC 0
        SLDC 0
        CGP fib
        ADI
        STL fib
exit:   RNP 1

proc 1 recursion level 0 params 2 data 2
round = 3
result = 4
rounds = 80
        SLDC 0                  ; FOR ROUND := 1 TO ROUNDS DO RESULT := FIB(23)
        SRO round
for:    SLDO round
        SLDC rounds
        LESI
        FJP done
        SLDC 23
        SLDC 0
        SLDC 0
        CGP fib
        SRO result
        SLDO round
        SLDC 1
        ADI
        SRO round
        UJP for
done:   SLDO result
        CGP print
        SLDC lf
        CGP put
exit:   RBP 0

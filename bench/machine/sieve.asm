; The sieve of Eratosthenes over the 8191 odd numbers from 3 on, again and again: 1899 primes.
program SIEVE segment 1

include numbers.inc             ; of examples

proc 1 sieve level 0 params 2 data 8197
i = 3
prime = 4
k = 5
count = 6
pass = 7
flags = 8                       ; ARRAY[0..8190] OF BOOLEAN
passes = 360
last = 8190
        SLDC 0                  ; FOR PASS := 1 TO PASSES DO
        SRO pass
again:  SLDO pass
        LDCI passes
        LESI
        FJP done
        SLDO pass
        SLDC 1
        ADI
        SRO pass
        SLDC 0                  ; COUNT := 0
        SRO count
        SLDC 0                  ; FOR I := 0 TO LAST DO FLAGS[I] := TRUE
        SRO i
fill:   SLDO i
        LDCI last
        LEQI
        FJP filled
        LAO flags
        SLDO i
        IXA 1
        SLDC 1
        STO
        SLDO i
        SLDC 1
        ADI
        SRO i
        UJP fill
filled: SLDC 0                  ; FOR I := 0 TO LAST DO
        SRO i
for:    SLDO i
        LDCI last
        LEQI
        FJP again
        LAO flags               ; IF FLAGS[I] THEN
        SLDO i
        IXA 1
        SIND 0
        FJP next
        SLDO i                  ; PRIME := I + I + 3
        SLDO i
        ADI
        SLDC 3
        ADI
        SRO prime
        SLDO count              ; COUNT := COUNT + 1
        SLDC 1
        ADI
        SRO count
        SLDO i                  ; K := I + PRIME
        SLDO prime
        ADI
        SRO k
strike: SLDO k                  ; WHILE K <= LAST DO
        LDCI last
        LEQI
        FJP next
        LAO flags               ; FLAGS[K] := FALSE
        SLDO k
        IXA 1
        SLDC 0
        STO
        SLDO k                  ; K := K + PRIME
        SLDO prime
        ADI
        SRO k
        UJP strike
next:   SLDO i
        SLDC 1
        ADI
        SRO i
        UJP for
done:   SLDO count
        CGP print
        SLDC lf
        CGP put
exit:   RBP 0

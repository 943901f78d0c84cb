; A machine of eight states that is driven by a case jump, 30000 turns a round, and what it then has in A and B.
program CASES segment 1

include numbers.inc             ; of examples

proc 1 cases level 0 params 2 data 5
state = 3
a = 4
b = 5
turn = 6
round = 7
turns = 30000
rounds = 220
        SLDC 0                  ; FOR ROUND := 1 TO ROUNDS DO
        SRO round
again:  SLDO round
        LDCI rounds
        LESI
        FJP done
        SLDO round
        SLDC 1
        ADI
        SRO round
        SLDC 0                  ; FOR TURN := 1 TO TURNS DO
        SRO turn
for:    SLDO turn
        LDCI turns
        LESI
        FJP again
        SLDO turn
        SLDC 1
        ADI
        SRO turn
        SLDO state              ; CASE STATE OF
        UJP case
zero:   SLDO a                  ; 0: A := A + 1; STATE := 3
        SLDC 1
        ADI
        SRO a
        SLDC 3
        UJP go
one:    SLDO a                  ; 1: A := A - B; STATE := 5
        SLDO b
        SBI
        SRO a
        SLDC 5
        UJP go
two:    SLDO b                  ; 2: B := B + 3; STATE := 1
        SLDC 3
        ADI
        SRO b
        SLDC 1
        UJP go
three:  SLDO a                  ; 3: A := A * 5 + 1; STATE := 6
        SLDC 5
        MPI
        SLDC 1
        ADI
        SRO a
        SLDC 6
        UJP go
four:   SLDO a                  ; 4: A := A + B; STATE := 7
        SLDO b
        ADI
        SRO a
        SLDC 7
        UJP go
five:   SLDO b                  ; 5: B := B + A; STATE := 4
        SLDO a
        ADI
        SRO b
        SLDC 4
        UJP go
six:    SLDO b                  ; 6: B := -B; STATE := 2
        NGI
        SRO b
        SLDC 2
        UJP go
seven:  SLDO a                  ; 7: STATE := the lowest three bits of A + TURN
        SLDO turn
        ADI
        SLDC 7
        LAND
        UJP go
case:   XJP 0 7 for zero one two three four five six seven
go:     SRO state
        UJP for
done:   SLDO a
        CGP print
        SLDC ' '
        CGP put
        SLDO b
        CGP print
        SLDC lf
        CGP put
exit:   RBP 0

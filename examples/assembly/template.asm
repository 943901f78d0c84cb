; A program to begin with: it reads a character, and prints it and a line's end. Copy this file and change it.
; README.md, in the folder examples, explains its lines, and docs/FORMATS.md the instructions.
program TEMPLATE segment 1      ; a name of at most 8 characters

include console.inc             ; PUT(C), which prints a character, and the names console, systerm and lf

; Here stand the names of numbers that all procedures may use, and the other procedures.

; The program begins at procedure 1, which is at level 0 and has two parameter words. So its first variable has
; offset 3. `data` is how many words its variables take.
proc 1 template level 0 params 2 data 1
c = 3
        SLDC systerm            ; UNITREAD(SYSTERM, C, 1): the unit
        LAO c                   ; where the bytes go, as an address
        SLDC 0                  ; and an index that is added to it
        SLDC 1                  ; how many bytes
        SLDC 0                  ; two words that mean nothing here
        SLDC 0
        CSP 5
        CSP 0                   ; error 10 if there is no such unit
        SLDO c                  ; PUT(C)
        CGP put
        text CGP put lf         ; PUT for each character; a text is written text CGP put "BYE" lf
exit:   RBP 0                   ; the program ends

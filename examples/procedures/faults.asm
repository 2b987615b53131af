; faults: goes wrong on purpose, in the way that its argument says.
;
; Arguments: one octet.
;            1  reads beyond the argument region:    fault 1, AccessOutside
;            2  writes to the arguments:             fault 2, WriteToArguments
;            3  calls itself without an end:         fault 3, CallDepth
;            any other: ends well.
;
; A fault makes the procedure inactive. Its machine stays as it was, with its
; place at the instruction that could not be done: `view` shows the fault's
; number, this place and the registers. Places count slots from 0; the numbers
; in the comments below are places.

        ldxb r6, [r1]           ;  0
        jeq64 r6, 1, outside    ;  1
        jeq64 r6, 2, write      ;  2
        jeq64 r6, 3, deep       ;  3
        exit                    ;  4

outside:
        mov64 r0, 0             ;  5
walk:   ldxb r3, [r1]           ;  6  fails after the 256th octet
        add64 r0, 1             ;  7
        add64 r1, 1             ;  8
        ja walk                 ;  9

write:  stb [r1], 0             ; 10  fails at once
        exit                    ; 11

deep:   call local deep         ; 12  fails at depth 7
        exit                    ; 13

; median: the middle one of the arguments, as a filter against single wild
; samples.
;
; Sorts the octets into the work region (insertion: each new one moves down
; until the one below it is not greater), and takes the one in the middle; of an
; even number of samples, the upper one of the two in the middle.
;
; Arguments: samples, one octet each, 0 to 256 of them.
; Result:    r0 = the median, or -1 if there is no sample.
;
; New here:  the work region, 1,024 octets from 0x30000000 that may be read and
;            written; arguments may only be read. And `lddw`, which takes a number
;            of 64 bits and so two slots (this address is short enough for a
;            `mov64` too).

        jeq64 r2, 0, nothing
        lddw r9, 0x30000000     ; r9 = the start of the sorted ones
        mov64 r3, 0             ; r3 = how many are sorted
next:   mov64 r4, r1
        add64 r4, r3
        ldxb r5, [r4]           ; r5 = the sample to put in
        mov64 r6, r9
        add64 r6, r3            ; r6 = the place after the sorted ones
down:   jeq64 r6, r9, put       ; it is the least so far
        ldxb r7, [r6-1]
        jle64 r7, r5, put
        stxb [r6], r7           ; the greater one moves up
        sub64 r6, 1
        ja down
put:    stxb [r6], r5
        add64 r3, 1
        jlt64 r3, r2, next

        div64 r2, 2
        add64 r9, r2
        ldxb r0, [r9]           ; the middle one
        exit

nothing:
        mov64 r0, -1
        exit

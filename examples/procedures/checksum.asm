; checksum: Fletcher's checksum of 16 bits over the arguments.
;
; Two sums modulo 255: the first adds up the octets, the second adds up the
; first sum after each octet. So octets that change places are noticed, which a
; plain sum does not do.
;
; Arguments: any octets, 0 to 256 of them.
; Result:    r0 = second sum * 256 + first sum.
;
; New here:  where the arguments are. At the start r1 is the address of the
;            first one and r2 is how many there are. Also reading an octet from
;            memory, and a loop that tests at its beginning, so that it may have
;            no turn at all.

        mov64 r3, 0             ; the first sum
        mov64 r4, 0             ; the second sum
        add64 r2, r1            ; r2 = the address after the last argument
next:   jge64 r1, r2, done      ; all octets read
        ldxb r5, [r1]           ; the octet at address r1
        add64 r3, r5
        mod64 r3, 255
        add64 r4, r3
        mod64 r4, 255
        add64 r1, 1
        ja next
done:   mov64 r0, r4
        lsh64 r0, 8
        or64 r0, r3
        exit

; counter: counts in a word of the pool that others count in, too.
;
; Arguments: one octet, how often to count.
; Result:    word 0 of the pool is as much greater.
;
; New here:  `call 3` reads and writes a word in one instruction, and nothing
;            comes between.

        ldxb r6, [r1]           ; how often
next:   jeq64 r6, 0, done
        mov64 r1, 0
        mov64 r2, 1
        call 3                  ; word 0 = word 0 + 1
        sub64 r6, 1
        ja next
done:   exit

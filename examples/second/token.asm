; A token that only one procedure has at a time: word 0 of the pool, 0 while nobody
; has it, else the number of the one that has.
;
; arguments: one octet, the number of this procedure, not 0
; Three times it takes the token, counts up word 1 of the pool, and gives the token
; back. It counts by reading and writing (`call 1`, `call 2`), so that another one
; in between would make it lose counts: the token keeps the others away.

        ldxb r6, [r1]           ; its number
        mov64 r7, 3             ; three rounds

take:   mov64 r1, 0             ; word 0
        mov64 r2, 0             ; if nobody has the token
        mov64 r3, r6            ; it is mine
        call 6                  ; r0 = who had it
        jne64 r0, 0, take       ; somebody: ask again

        mov64 r1, 1             ; with the token: word 1 = word 1 + 1
        call 1
        mov64 r2, r0
        add64 r2, 1
        call 2

        mov64 r1, 0             ; give the token back
        mov64 r2, 0
        call 2
        sub64 r7, 1
        jne64 r7, 0, take
        exit

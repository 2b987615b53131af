; loses_counts: counts in a word of the pool, wrongly if others count in it.
;
; It reads the word, adds to it, and writes it back. What another procedure
; wrote in between is lost. `counter` does it right.
;
; Arguments: one octet, how often to count.
; Result:    word 0 of the pool is greater, if nobody else counts.
;
; New here:  a mistake that only shows when two procedures run.

        ldxb r6, [r1]           ; how often
next:   jeq64 r6, 0, done
        mov64 r1, 0
        call 1                  ; r0 = word 0
        mov64 r2, r0
        add64 r2, 1
        call 2                  ; word 0 = r2
        sub64 r6, 1
        ja next
done:   exit

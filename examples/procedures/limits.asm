; limits: a limit monitor.
;
; Reads a lower limit, an upper limit and then samples, and counts the samples
; that are too low and those that are too high. The two counts are kept on the
; stack.
;
; Arguments: lower limit, upper limit, samples. Each is a signed number of
;            16 bits, highest octet first, as numbers in packets are.
; Result:    r0 = violations in all, r1 = samples that are too low,
;            r2 = samples that are too high.
;
; New here:  the stack. r10 is the end of this procedure's frame, so what is
;            kept is below it: [r10-8] and [r10-16]. Also reversing the octets
;            of a number (`be`), keeping its sign (`movsx64`), signed
;            comparisons (`jslt`, `jsgt`), and a part of the code that is called
;            from several places.

        mov64 r6, r1            ; r6 = the address of the next number
        mov64 r9, r1
        add64 r9, r2            ; r9 = the address after the last argument
        stdw [r10-8], 0         ; too low: none so far
        stdw [r10-16], 0        ; too high: none so far
        call local number
        mov64 r7, r0            ; r7 = the lower limit
        add64 r6, 2
        call local number
        mov64 r8, r0            ; r8 = the upper limit
        add64 r6, 2
sample: jge64 r6, r9, done
        call local number
        add64 r6, 2
        jslt64 r0, r7, low
        jsgt64 r0, r8, high
        ja sample

low:    ldxdw r3, [r10-8]
        add64 r3, 1
        stxdw [r10-8], r3
        ja sample

high:   ldxdw r3, [r10-16]
        add64 r3, 1
        stxdw [r10-16], r3
        ja sample

done:   ldxdw r1, [r10-8]
        ldxdw r2, [r10-16]
        mov64 r0, r1
        add64 r0, r2
        exit

; The number at address r6, in r0. This `exit` goes back to the caller.
number: ldxh r0, [r6]           ; memory is read lowest octet first
        be r0, 16               ; so the two octets change places
        movsx64 r0, r0, 16      ; and bit 15 is the sign
        exit

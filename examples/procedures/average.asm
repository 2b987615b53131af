; average: the mean of the samples in the arguments, rounded down.
;
; The procedure itself is short. Its script is what to read: it runs a version
; with a mistake, finds the mistake with the debugger, and ends with this one.
;
; Arguments: 1 to 256 samples of one octet.
; Result:    r0 = their sum divided by their number.
;
; New here:  breakpoints, the trace, and looking at memory, in the script.

        mov64 r0, 0             ; the sum
        mov64 r3, 0             ; the index of the next sample
next:   jge64 r3, r2, done      ; all samples added
        mov64 r4, r1
        add64 r4, r3            ; the address of the sample
        ldxb r5, [r4]
        add64 r0, r5
        add64 r3, 1
        ja next
done:   div64 r0, r2
        exit

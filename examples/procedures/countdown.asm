; countdown: the smallest loop.
;
; Counts a register down from ten to zero. The jump at the end of the loop goes
; back as long as the counter is not zero.
;
; Arguments: none.
; Result:    r0 = the turns of the loop (10), r6 = the counter (0).
;
; New here:  a label (`again:`), moving and adding numbers, a jump with a
;            condition, and `exit`, which ends the procedure.

        mov64 r0, 0             ; no round so far
        mov64 r6, 10            ; the counter
again:  add64 r0, 1             ; one more round
        sub64 r6, 1             ; one less to go
        jne64 r6, 0, again      ; back to `again` while r6 is not 0
        exit

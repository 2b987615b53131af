; limit_old: a monitor that flies with a wrong limit.
;
; Counts how often the value in word 0 of the pool is over the limit, in word 1.
; The limit is 100, and should be 50.
;
; Arguments: none.
; Steps:     step 1 is one look.
;
; New here:  what has to outlive a procedure is kept in the pool.

look:   mov64 r1, 0
        call 1                  ; r0 = the value
        jle64 r0, 100, end      ; the wrong limit
        mov64 r1, 1
        mov64 r2, 1
        call 3                  ; one more that is over the limit
end:    mov64 r1, 1
        call 5                  ; the end of step 1
        ja look

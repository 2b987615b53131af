; safe_mode: brings a spacecraft into its safe mode, in four steps.
;
; Each step turns one thing, and ends with its own number, so that ground can
; hold the sequence, or stop it, after each of them.
;
;   step   what is done               the pool's word
;   1      the payload is off         word 1 = 1
;   2      the radio has a low rate   word 2 = 1
;   3      the panels face the sun    word 3 = 1
;   4      the heaters are on         word 4 = 1
;
; Arguments: none.
; Result:    r0 = 4, and word 0 of the pool = how many sequences were finished.
;
; New here:  steps with names of their own, and a function that does one step.

        mov64 r1, 1
        call local take
        mov64 r1, 2
        call local take
        mov64 r1, 3
        call local take
        mov64 r1, 4
        call local take
        mov64 r1, 0
        mov64 r2, 1
        call 3                  ; word 0 is one more
        mov64 r0, 4
        exit

; Takes the step r1: word r1 of the pool = 1, and the step has ended.
take:   mov64 r2, 1
        call 2                  ; word r1 = 1
        call 5                  ; the end of step r1
        exit

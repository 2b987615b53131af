; heater_new: the thermostat with a narrower band: the heater is off from half a
; degree above the set point on.
;
; Arguments, messages, steps, words and registers are those of heater_old.
;
; New here:  nothing: it is heater_old with another number.

        ldxb r6, [r1]           ; the set point at first
        jne64 r2, 0, round      ; it was given: a start from nothing
        mov64 r1, 4
        call 1
        mov64 r6, r0            ; take over the set point
        mov64 r1, 5
        call 1
        mov64 r7, r0            ; and the count
round:  call 4                  ; is there a message?
        jeq64 r0, 0, measure
        mov64 r6, r1            ; yes: the new set point
measure:
        mov64 r1, 0
        call 1
        mov64 r8, r0            ; the temperature
        mov64 r1, 1
        call 1                  ; r0 = the heater
        jlt64 r8, r6, on        ; below the set point: on
        mov64 r2, r6
        add64 r2, 5             ; half a degree
        jlt64 r8, r2, switch    ; below that: as it is
        mov64 r0, 0
        ja switch
on:     mov64 r0, 1
switch: add64 r7, r0            ; one more round, if it is on
        mov64 r2, r0
        mov64 r1, 1
        call 2                  ; the heater
        mov64 r1, 4
        mov64 r2, r6
        call 2                  ; the set point, for the next version
        mov64 r1, 5
        mov64 r2, r7
        call 2                  ; the count
        mov64 r1, 1
        call 5                  ; the end of step 1
        ja round

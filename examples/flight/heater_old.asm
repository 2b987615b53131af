; heater_old: a thermostat that a newer version can take over from, while it runs.
;
; Word 0 of the pool is the temperature, word 1 the heater: 1 on, 0 off. It is off
; from two degrees above the set point on. At the end of each round this version
; writes its variables into the pool: the set point into word 4, and into word 5 how
; many rounds the heater was on. Temperatures are in tenths of a degree.
;
; Arguments: one octet, the set point at first. Without one it takes over: it begins
;            with the variables in words 4 and 5.
; Messages:  a word that is sent by `communicate` is the new set point.
; Steps:     step 1 is one round.
; Registers: r6 = the set point, r7 = the rounds with the heater on.
;
; New here:  variables that outlive their procedure.

        ldxb r6, [r1]           ; the set point at first
        jne64 r2, 0, round      ; it was given: a start from nothing
        mov64 r1, 4
        call 1
        mov64 r6, r0            ; take over the set point
        mov64 r1, 5
        call 1
        mov64 r7, r0            ; and the count
round:  call 4                  ; is there a message?
        jeq64 r0, 0, measure
        mov64 r6, r1            ; yes: the new set point
measure:
        mov64 r1, 0
        call 1
        mov64 r8, r0            ; the temperature
        mov64 r1, 1
        call 1                  ; r0 = the heater
        jlt64 r8, r6, on        ; below the set point: on
        mov64 r2, r6
        add64 r2, 20            ; two degrees
        jlt64 r8, r2, switch    ; below that: as it is
        mov64 r0, 0
        ja switch
on:     mov64 r0, 1
switch: add64 r7, r0            ; one more round, if it is on
        mov64 r2, r0
        mov64 r1, 1
        call 2                  ; the heater
        mov64 r1, 4
        mov64 r2, r6
        call 2                  ; the set point, for the next version
        mov64 r1, 5
        mov64 r2, r7
        call 2                  ; the count
        mov64 r1, 1
        call 5                  ; the end of step 1
        ja round

; thermostat: keeps a temperature at a set point, round by round, until it is stopped.
;
; Word 0 of the pool is the temperature, word 1 the heater: 1 on, 0 off. Below
; the set point the heater is turned on; two degrees above it, off; between the
; two it stays as it is.
;
; Arguments: one octet, the set point at first.
; Messages:  a word that is sent by `communicate` is the new set point.
; Steps:     step 1 is one round.
; Registers: r6 = the set point.
;
; New here:  the pool (`call 1`, `call 2`), the mailbox (`call 4`), the end of a
;            step (`call 5`), and a loop that only ground ends.

        ldxb r6, [r1]           ; the set point at first
round:  call 4                  ; is there a message?
        jeq64 r0, 0, measure    ; no
        mov64 r6, r1            ; yes: the new set point
        ja round                ; the last message counts
measure:
        mov64 r1, 0
        call 1                  ; r0 = the temperature
        mov64 r2, 1
        jlt64 r0, r6, switch    ; below the set point: on
        mov64 r2, 0
        mov64 r3, r6
        add64 r3, 2
        jlt64 r0, r3, end       ; within two degrees: as it is
switch: mov64 r1, 1
        call 2                  ; the heater
end:    mov64 r1, 1
        call 5                  ; the end of step 1
        ja round

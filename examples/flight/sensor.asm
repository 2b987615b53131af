; sensor: writes a measured temperature for the thermostat to read.
;
; Arguments: one octet, the temperature.
; Result:    word 0 of the pool is the temperature.
;
; New here:  the pool, words that all procedures share (`call 2` writes one).

        ldxb r2, [r1]           ; the temperature
        mov64 r1, 0             ; the word's index
        call 2                  ; word 0 = r2
        exit

; factorial: a procedure that calls itself.
;
; 1 * 2 * .. * n, by the rule that n! is n times (n - 1)!.
;
; Arguments: one octet, n.
; Result:    r0 = n!. From n = 8 on the calls go too deep, and the procedure
;            ends with fault 3 (CallDepth).
;
; New here:  recursion. Each call goes one frame deeper: it saves r6 to r9, and
;            `exit` at depth 1 or more brings them back. So each depth has an r6
;            of its own. Registers r0 to r5 are not saved; here r1 carries the
;            argument and r0 the result.

        ldxb r1, [r1]           ; n
        call local factorial
        exit                    ; at depth 0: ends the procedure

factorial:
        jgt64 r1, 1, greater
        mov64 r0, 1             ; 0! and 1!
        exit
greater:
        mov64 r6, r1            ; n, kept over the call
        sub64 r1, 1
        call local factorial    ; r0 = (n - 1)!
        mul64 r0, r6
        exit

; error_control: the error control at the end of each packet, over the
; arguments.
;
; It is the remainder of a division of polynomials over bits, by
; x^16 + x^12 + x^5 + 1. The register of 16 bits starts with all ones. For each
; bit, highest first, it is shifted up by one; if a one falls out at bit 16,
; the polynomial (11021 in hexadecimal) is taken away by exclusive-or.
;
; Arguments: any octets, 0 to 256 of them.
; Result:    r0 = the error control of these octets.
;
; New here:  a loop within a loop, numbers in hexadecimal, and `jset`, which
;            jumps if any of the bits that it names is set.

        mov64 r0, 0xffff        ; the register: all ones
        add64 r2, r1            ; r2 = the address after the last argument
octet:  jge64 r1, r2, done
        ldxb r3, [r1]
        lsh64 r3, 8
        xor64 r0, r3            ; the octet comes in at the upper end
        mov64 r4, 8             ; eight bits
bit:    lsh64 r0, 1
        jset64 r0, 0x10000, divide
        ja shifted
divide: xor64 r0, 0x11021       ; also clears bit 16
shifted:
        sub64 r4, 1
        jne64 r4, 0, bit
        add64 r1, 1
        ja octet
done:   exit

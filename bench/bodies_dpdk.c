/* DPDK's interpreter as a peer of bench/bodies: one image a line in hexadecimal digits, and for each one line: `refused`, `crashed`
 * if its verifier or interpreter divides in a way that the processor refuses, or the octets that it left in the memory that R1
 * pointed to.
 *
 * Usage: bodies_dpdk < images */
#include <rte_bpf.h>
#include <setjmp.h>
#include <signal.h>
#include <stdint.h>
#include <stdio.h>
#include <string.h>

enum { MAX_SLOTS = 2048, RESULT = 144 };

static uint32_t octets_of(const char *text, uint8_t *octets)
{
    uint32_t count = 0;
    for (unsigned octet; count < 8 * MAX_SLOTS && sscanf(text + 2 * count, "%2x", &octet) == 1; count++)
        octets[count] = (uint8_t)octet;
    return count;
}

static sigjmp_buf before;

static void leave(int number)
{
    siglongjmp(before, number);
}

int main(void)
{
    signal(SIGFPE, leave);
    static char text[16 * MAX_SLOTS + 2];
    static struct ebpf_insn code[MAX_SLOTS];
    while (fgets(text, sizeof text, stdin)) {
        struct rte_bpf_prm parameters;
        memset(&parameters, 0, sizeof parameters);
        parameters.ins = code;
        parameters.nb_ins = octets_of(text, (uint8_t *)code) / 8;
        parameters.prog_arg.type = RTE_BPF_ARG_PTR;
        parameters.prog_arg.size = RESULT;
        if (sigsetjmp(before, 1)) {
            puts("crashed");
            continue;
        }
        struct rte_bpf *program = rte_bpf_load(&parameters);
        if (!program) {
            puts("refused");
            continue;
        }
        uint8_t result[RESULT] = {0};
        rte_bpf_exec(program, result);
        rte_bpf_destroy(program);
        for (int at = 0; at < RESULT; at++)
            printf("%02x", result[at]);
        putchar('\n');
    }
    return 0;
}

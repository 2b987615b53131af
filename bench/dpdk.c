/* The interpreter of DPDK's librte_bpf to compare with. It refuses jumps back, and checks no access, budget or breakpoint while it
 * runs.
 *
 * Usage: dpdk REPEATS < image in hexadecimal digits */
#include <rte_bpf.h>
#include <stdint.h>
#include <stdio.h>
#include <stdlib.h>
#include <string.h>

enum { MAX_SLOTS = 2048 };

static uint32_t read_image(struct ebpf_insn *code)
{
    static char text[16 * MAX_SLOTS + 2];
    uint8_t *octets = (uint8_t *)code;
    size_t length = fread(text, 1, sizeof text - 1, stdin), count = 0;
    for (; 2 * count + 2 <= length && text[2 * count] > ' '; count++) {
        unsigned octet;
        sscanf(text + 2 * count, "%2x", &octet);
        octets[count] = (uint8_t)octet;
    }
    return (uint32_t)(count / 8);
}

int main(int count, char **words)
{
    if (count != 2)
        return 2;
    static struct ebpf_insn code[MAX_SLOTS];
    struct rte_bpf_prm parameters;
    memset(&parameters, 0, sizeof parameters);
    parameters.ins = code;
    parameters.nb_ins = read_image(code);
    parameters.prog_arg.type = RTE_BPF_ARG_RAW;
    parameters.prog_arg.size = 8;
    struct rte_bpf *program = rte_bpf_load(&parameters);
    if (!program)
        return 1;
    uint64_t sum = 0;
    for (long repeat = 0; repeat < atol(words[1]); repeat++)
        sum += rte_bpf_exec(program, (void *)(uintptr_t)(1 + repeat));
    printf("%u slots, sum %llx\n", parameters.nb_ins, (unsigned long long)sum);
    return 0;
}

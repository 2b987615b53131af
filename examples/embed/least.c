/* The least that a program does with an engine: open, load, activate, slice, view. The procedure is that of the front page;
 * it ends with 7 in R0. The program also prints how many octets of memory the engine takes. */
#include "ocp_engine.h"

#include <inttypes.h>
#include <stdio.h>

/* Telecommands for the application process 291; the load's code are the 24 octets from b7 on. No flag asks for a report. */
static const uint8_t load[] = {0x19, 0x23, 0xc0, 0x00, 0x00, 0x22, 0x20, 0x12, 0x01, 0x00, 0x00, 0x00, 0x07, 0x00,
                               0x18, 0xb7, 0x00, 0x00, 0x00, 0x05, 0x00, 0x00, 0x00, 0x07, 0x00, 0x00, 0x00, 0x02,
                               0x00, 0x00, 0x00, 0x95, 0x00, 0x00, 0x00, 0x00, 0x00, 0x00, 0x00, 0x1c, 0xdb};
static const uint8_t activate[] = {0x19, 0x23, 0xc0, 0x01, 0x00, 0x0a, 0x20, 0x12, 0x03, 0x00, 0x00, 0x00, 0x07, 0x00, 0x00,
                                   0xa9, 0xa4};

int main(void)
{
    struct ocp_engine engine = OCP_CLOSED;
    uint8_t reports[OCP_REQUEST_REPORTS];
    size_t written;
    printf("%zu octets of memory\n", ocp_size(1, 16, 1000, 65536));
    if (ocp_open(&engine, 1, 291, 16, 1000, 65536) != OCP_DONE)
        return 1;
    if (ocp_request(&engine, 0, load, sizeof load, reports, sizeof reports, &written) != OCP_DONE)
        return 2;
    if (ocp_request(&engine, 0, activate, sizeof activate, reports, sizeof reports, &written) != OCP_DONE)
        return 3;

    uint32_t count;
    struct ocp_outcome last;
    if (ocp_slice(&engine, 7, 100, &count, &last) != OCP_DONE || last.kind != OCP_ENDED)
        return 4;

    struct ocp_view view;
    uint64_t registers[11];
    if (ocp_view(&engine, 7, &view, registers, 11) != OCP_DONE)
        return 5;
    printf("%" PRIu32 " instructions, r0 = %" PRIu64 "\n", count, registers[0]);
    return ocp_close(&engine) == OCP_DONE ? 0 : 6;
}

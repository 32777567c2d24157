#include <stdio.h>
#include "xm23.h"

static uint8_t memory[XM23_MEMORY_SIZE], record[XM23_RECORD_SIZE];

int main(void)
{
    memory[0x1000] = 0x88, memory[0x1001] = 0x40; /* ADD #1,R0 */
    record[XM23_RECORD_REGISTER(7) + 1] = 0x10;   /* PC is $1000 */
    uint32_t deepest;                             /* how many frames were open together at most */
    uint64_t r = xm23_run(memory, sizeof memory, record, sizeof record, NULL, 0, NULL, 0, &deepest, 1);
    printf("%s, steps %u, depth %u, R0 %u\n", xm23_refusal_text(XM23_RUN_REFUSAL(r)), XM23_RUN_STEPS(r),
           deepest, record[0]);
}

/* Stack bytes: xm23_stack. */
#include "host.h"

static uint8_t vectors[XM23_VECTORS_SIZE + 1], uses[XM23_USES_SIZE + 1];

/* Devices 0 to 3 of priorities 0, 2, 2 and 5, with uses 6, 10, 20 and 0. */
static void handlers(void)
{
    static const uint8_t priorities[] = {0, 2, 2, 5}, bytes[] = {6, 10, 20, 0};
    size_t d;
    memset(vectors, 0, sizeof vectors);
    memset(uses, 0, sizeof uses);
    for (d = 0; d < 4; d++) {
        vectors[4 * d] = (uint8_t)(priorities[d] << 5);
        uses[2 * d] = bytes[d];
    }
}

static uint32_t stack(uint8_t devices, uint32_t priority)
{
    return xm23_stack(vectors, XM23_VECTORS_SIZE, devices, uses, XM23_USES_SIZE, priority);
}

static void stacks(void)
{
    size_t d;
    handlers();
    same("figure", stack(0x0F, 0), 36 << 8);
    same("bytes", XM23_STACK_BYTES(stack(0x0F, 0)), 36);
    same("accepted", XM23_REFUSAL(stack(0x0F, 0)), XM23_ACCEPTED);
    same("the dearest alone", stack(0x02, 0), 18 << 8);
    same("above the priority", stack(0x0F, 2), 8 << 8);
    same("no device", stack(0, 0), 0);
    same("priority 7", stack(0x0F, 7), 0);
    same("priority 8", stack(0x0F, 8), XM23_REFUSED_STACK);
    same("the greatest priority", stack(0x0F, UINT32_MAX), XM23_REFUSED_STACK);
    same("short vectors", xm23_stack(vectors, 63, 0x0F, uses, XM23_USES_SIZE, 0), XM23_REFUSED_STACK);
    same("long vectors", xm23_stack(vectors, 65, 0x0F, uses, XM23_USES_SIZE, 0), XM23_REFUSED_STACK);
    same("short uses", xm23_stack(vectors, XM23_VECTORS_SIZE, 0x0F, uses, 15, 0), XM23_REFUSED_STACK);
    same("long uses", xm23_stack(vectors, XM23_VECTORS_SIZE, 0x0F, uses, 17, 0), XM23_REFUSED_STACK);
    same("nothing", xm23_stack(NULL, 0, 0xFF, NULL, 0, 0), XM23_REFUSED_STACK);
    uses[15] = XM23_MAX_USE >> 8;
    same("1,024", stack(0x0F, 0), 36 << 8);
    uses[14] = 1;
    same("1,025 of a device that is not chosen", stack(0x0F, 0), XM23_REFUSED_STACK);
    handlers();
    for (d = 0; d < 8; d++) {
        vectors[4 * d] = (uint8_t)(d << 5);
        uses[2 * d] = 0;
        uses[2 * d + 1] = 4;
    }
    same("the most", XM23_STACK_BYTES(stack(0xFF, 0)), 7224);

    /* The vectors of a memory as a machine has it. */
    example();
    memcpy(memory + XM23_VECTORS, vectors, XM23_VECTORS_SIZE);
    same("of a memory", xm23_stack(memory + XM23_VECTORS, XM23_VECTORS_SIZE, 0xFF, uses, XM23_USES_SIZE, 6),
         (uint64_t)1032 << 8);
}

void stack_calls(void)
{
    stacks();
}

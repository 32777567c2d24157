/* Makes a string of commands of an input of print_state: pack < CASE.in > SEED. Says on standard error if it cannot. */
#include <stdio.h>
#include <string.h>

#include "setup.h"

static uint8_t input[4 + 32 + 65536 + 8 * 4097], commands[4096];
static struct setup again;

int main(void)
{
    size_t size = fread(input, 1, sizeof input, stdin), length = pack(commands, sizeof commands, input, size);
    if (!length) {
        fprintf(stderr, "no commands for an input of %zu bytes\n", size);
        return 1;
    }
    unpack(&again, commands, length);
    again.record[21] = input[25]; /* halted where n is too large */
    if (memcmp(again.memory, input + 36, 65536) != 0 || memcmp(again.record, input + 4, 32) != 0) {
        fprintf(stderr, "the commands make another setup\n");
        return 1;
    }
    return fwrite(commands, 1, length, stdout) == length ? 0 : 1;
}

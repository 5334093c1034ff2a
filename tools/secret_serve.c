/* secret_serve WORDS: serves the words of a command line on what stands in standard input, by one call of the library,
   and writes what the call writes. Made and run by tools/secret_traces; the room is the same whatever is written. */
#include <hpkebatch.h>
#include <stdio.h>
#include <string.h>

#define MOST (1 << 20)

static uint8_t input[MOST], output[MOST];

int main(int argc, char **argv)
{
    if (argc != 2)
        return 100;
    size_t size = fread(input, 1, MOST, stdin), written = 0;
    uint32_t status = hpkebatch_serve((const uint8_t *)argv[1], strlen(argv[1]), input, size, output, MOST, &written);
    if (status == HPKEBATCH_DONE)
        fwrite(output, 1, written, stdout);
    return (int)status;
}

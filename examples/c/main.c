/* Prints the lines of the trial file on standard input. An argument sets the size of the output buffer. */
#include "pearprompt.h"
#include <stdio.h>
#include <stdlib.h>

int main(int argc, char **argv)
{
    /* One byte more than is ever taken, so that a longer file is seen to be one. */
    static uint8_t file[PEARPROMPT_LONGEST + 1];
    size_t room = argc > 1 ? strtoul(argv[1], NULL, 10) : PEARPROMPT_ROOM;
    uint8_t *out = malloc(room);
    if (out == NULL) {
        fputs("no memory\n", stderr);
        return 1;
    }
    size_t len = fread(file, 1, sizeof file, stdin);
    size_t written = pearprompt_decode(file, len, out, room);
    if (written == 0) {
        fputs("no lines: the buffer is too short, or memory is wanting\n", stderr);
        free(out);
        return 1;
    }
    fwrite(out, 1, written, stdout);
    free(out);
    return 0;
}

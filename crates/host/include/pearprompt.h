/* Decoding a trial file. docs/format.md has the file and the lines, docs/host.md how to link. */
#ifndef PEARPROMPT_H
#define PEARPROMPT_H

#include <stddef.h>
#include <stdint.h>

#ifdef __cplusplus
extern "C" {
#endif

/* How many bytes the output buffer has to have, at least. */
#define PEARPROMPT_ROOM 65536

/* No file of more bytes is taken. */
#define PEARPROMPT_LONGEST 32768

/* Writes the lines of a trial file over the first bytes of `out`, and answers their length; the bytes after them keep their values.
   Where `out` is shorter than PEARPROMPT_ROOM, or memory is wanting, it answers 0 and writes nothing.
   The two must not overlap. */
size_t pearprompt_decode(const uint8_t *file, size_t file_len, uint8_t *out, size_t out_len);

#ifdef __cplusplus
}
#endif

#endif

/* Batsgomi: plays a script of message-logging commands and writes its listing.
 *
 * docs/FORMAT.md says what scripts and listings are, byte by byte. Link
 * target/staticlib/libscript.a, which `tools/archive` makes; of the C
 * library it needs memcpy and memset alone. */

#ifndef BATSGOMI_H
#define BATSGOMI_H

#include <stddef.h>
#include <stdint.h>

#ifdef __cplusplus
extern "C" {
#endif

/* The most bytes of a script, and of a listing. */
#define BATSGOMI_LONGEST 65536

/* Plays a script. The answer is packed: batsgomi_written and batsgomi_stop take
 * it apart. The bytes after the last whole line stay as they were.
 *
 * What the caller owes:
 * - script has script_len bytes to read, listing has listing_len bytes to write;
 * - the two do not overlap, and nobody else writes either during the call;
 * - a null pointer comes only with the length 0.
 * If a length is above BATSGOMI_LONGEST, the run stops by 15 and writes nothing.
 * It allocates nothing and keeps nothing between calls, so threads may call it
 * at once. Its tables stand on the stack: leave it 128 KiB (it was seen to use 72). */
uint64_t run(const uint8_t *script, size_t script_len,
             uint8_t *listing, size_t listing_len);

/* How many bytes of the listing were written: whole lines only. */
static inline size_t batsgomi_written(uint64_t answer)
{
    return (size_t)(answer & UINT32_MAX);
}

/* The number of the fault that stopped the run (1, 2 or 15 to 20), or 0. */
static inline unsigned batsgomi_stop(uint64_t answer)
{
    return (unsigned)(answer >> 32);
}

#ifdef __cplusplus
}
#endif

#endif

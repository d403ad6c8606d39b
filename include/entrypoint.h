/* The calls for C.
 *
 * Bytes are passed as a pointer and a length. The pointer is never null, also where the length is 0;
 * so are the pointers to numbers, each to a number of its own. Nothing is kept after a call, and no call allocates.
 *
 * The answer of a call is 0 where nothing is refused, else the number of the refusal.
 * On a refusal its place and its tag are written to `place` and `tag`; otherwise both stand as they were.
 * The types are the number types 1 to 8 and the text types 65 and 66.
 */
#ifndef ENTRYPOINT_H
#define ENTRYPOINT_H

#include <stddef.h>
#include <stdint.h>

#ifdef __cplusplus
extern "C" {
#endif

/* Checks a dictionary: 1 to 6, or 0. The place is one in the dictionary's bytes. */
uint8_t entrypoint_check(const uint8_t *dictionary, size_t dictionary_length,
                         size_t *place, uint32_t *tag);

/* Accepts bytes as a frame under a dictionary: 10 to 20 with a place in the frame's bytes,
 * 5 or 6 for the frame's template with a place in the dictionary's bytes, or 0.
 * The dictionary is not checked again: check it once before. */
uint8_t entrypoint_accept(const uint8_t *dictionary, size_t dictionary_length,
                          const uint8_t *bytes, size_t bytes_length,
                          size_t *place, uint32_t *tag);

/* What entrypoint_find finds. */
enum {
    ENTRYPOINT_ABSENT = 0, /* a field that is absent, or newer than the frame */
    ENTRYPOINT_VALUE = 1,  /* a field that has a value */
    ENTRYPOINT_DATA = 2    /* a data, also an empty one and one that is newer than the frame */
};

/* Accepts bytes as a frame, as above and with its refusals first, and finds what it has at a group, an entry and a tag.
 * The root is group 0, with the one entry 0.
 * On 0 the kind is written, and where in the frame the part begins and how many bytes it has: a field's bytes, also
 * where it is absent, or what a data holds, without its length. Both are 0 where the line is newer than the frame.
 * Else it is accept's refusal, or 5 or 6 for the frame's template, 22 where there is no such group, entry or tag,
 * 16 where the field's bytes are no pattern: its place and tag are written to `place` and `refused_tag`, and `kind`,
 * `at` and `length` stand as they were. */
uint8_t entrypoint_find(const uint8_t *dictionary, size_t dictionary_length,
                        const uint8_t *bytes, size_t bytes_length,
                        uint32_t group, size_t entry, uint32_t tag,
                        uint8_t *kind, size_t *at, size_t *length,
                        size_t *place, uint32_t *refused_tag);

#ifdef __cplusplus
}
#endif

#endif

/* Reads a dictionary and a frame from two files, checks the one and accepts the other, finds in it what is asked for,
 * and prints the answers.
 *
 *     gateway DICTIONARY FRAME [TAG | GROUP/ENTRY/TAG]...
 *
 * A tag alone is one of the root.

 * Ends with 0 where nothing is refused, with 1 where something is, and with 2 where a file is not read.
 */
#include <inttypes.h>
#include <stdio.h>
#include <stdlib.h>

#include "entrypoint.h"

/* No dictionary and no frame is longer than 32,000 bytes; what is longer is cut one byte behind that, and refused. */
enum { ROOM = 32001 };

static uint8_t dictionary[ROOM];
static uint8_t frame[ROOM];

static size_t read_file(const char *name, uint8_t *bytes)
{
    FILE *file = fopen(name, "rb");
    size_t length;

    if (file == NULL) {
        fprintf(stderr, "%s: cannot be opened\n", name);
        exit(2);
    }
    length = fread(bytes, 1, ROOM, file);
    if (ferror(file)) {
        fprintf(stderr, "%s: cannot be read\n", name);
        exit(2);
    }
    fclose(file);
    return length;
}

/* Prints an answer; tells whether something was refused. */
static int answer(const char *what, size_t length, uint8_t refused, size_t place, uint32_t tag)
{
    if (refused == 0) {
        printf("%s: %zu bytes, fine\n", what, length);
        return 0;
    }
    printf("%s: %zu bytes, refused %" PRIu8 " at place %zu, tag %" PRIu32 "\n", what, length, refused, place, tag);
    return 1;
}

/* Finds one tag and prints its bytes; tells whether that was refused. */
static int find(size_t dictionary_length, size_t frame_length, const char *word)
{
    static const char *const kinds[] = {"absent", "value", "data"};
    unsigned long group = 0;
    unsigned long entry = 0;
    unsigned long tag = 0;
    uint8_t kind = 0;
    size_t at = 0;
    size_t length = 0;
    size_t place = 0;
    uint32_t refused_tag = 0;
    uint8_t refused;
    size_t i;

    if (sscanf(word, "%lu/%lu/%lu", &group, &entry, &tag) != 3) {
        group = 0;
        entry = 0;
        if (sscanf(word, "%lu", &tag) != 1) {
            fprintf(stderr, "%s: neither TAG nor GROUP/ENTRY/TAG\n", word);
            exit(2);
        }
    }
    refused = entrypoint_find(dictionary, dictionary_length, frame, frame_length, (uint32_t)group, (size_t)entry,
                              (uint32_t)tag, &kind, &at, &length, &place, &refused_tag);
    if (refused != 0) {
        printf("%s: refused %" PRIu8 " at place %zu, tag %" PRIu32 "\n", word, refused, place, refused_tag);
        return 1;
    }
    printf("%s: %s at %zu, %zu bytes:", word, kinds[kind], at, length);
    for (i = 0; i < length; i++) {
        printf(" %02X", frame[at + i]);
    }
    printf("\n");
    return 0;
}

int main(int argc, char **argv)
{
    size_t dictionary_length;
    size_t frame_length;
    size_t place = 0;
    uint32_t tag = 0;
    uint8_t refused;
    int status = 0;
    int i;

    if (argc < 3) {
        fprintf(stderr, "usage: %s DICTIONARY FRAME [TAG | GROUP/ENTRY/TAG]...\n", argv[0]);
        return 2;
    }
    dictionary_length = read_file(argv[1], dictionary);
    frame_length = read_file(argv[2], frame);

    refused = entrypoint_check(dictionary, dictionary_length, &place, &tag);
    if (answer("dictionary", dictionary_length, refused, place, tag)) {
        return 1;
    }
    refused = entrypoint_accept(dictionary, dictionary_length, frame, frame_length, &place, &tag);
    if (answer("frame", frame_length, refused, place, tag)) {
        return 1;
    }
    for (i = 3; i < argc; i++) {
        status |= find(dictionary_length, frame_length, argv[i]);
    }
    return status;
}

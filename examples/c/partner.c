/* partner PATTERN: the other end of a link, to try a sender against. It reads Class D frames from standard input, and answers each data
 * message on standard output by the next letter of PATTERN, which begins anew at its end: a acknowledges it, n turns it away by a
 * negative acknowledgment, and - lets it drop. Exit status: 0 the input ended behind a frame, 2 a complaint. */
#include <stdio.h>
#include <stdlib.h>
#include <string.h>

#include "morlewen.h"

/* The bytes around a frame's body, those of the longest frame that a golden file makes, and those of a negative acknowledgment. */
enum { AROUND = MORLEWEN_FRAME_BODY + 1, LARGEST = AROUND + MORLEWEN_MESSAGE_ROOM, NEGATIVE_SIZE = AROUND + 5 };

/* The negative acknowledgment of S-9356: type 3, and in its body the COMMID turned away and the error code 5, not secured. */
static size_t turn_away(uint32_t own, uint32_t commid, uint8_t *frame)
{
    const uint8_t bytes[NEGATIVE_SIZE] = {
        2, 2, (uint8_t)(own >> 24), (uint8_t)(own >> 16), (uint8_t)(own >> 8), (uint8_t)own, 3, 2, 0, 0, 0, 5,
        (uint8_t)(commid >> 24), (uint8_t)(commid >> 16), (uint8_t)(commid >> 8), (uint8_t)commid, 5, 3};
    memcpy(frame, bytes, sizeof bytes);
    return sizeof bytes;
}

static void complain(const char *what)
{
    fprintf(stderr, "partner: %s\n", what);
    exit(2);
}

/* Reads one frame: how many bytes, or 0 at the end of the input. */
static size_t next_frame(uint8_t *frame)
{
    size_t got = fread(frame, 1, MORLEWEN_FRAME_BODY, stdin);
    if (got == 0)
        return 0;
    size_t rest = ((size_t)frame[8] << 24 | (size_t)frame[9] << 16 | (size_t)frame[10] << 8 | frame[11]) + 1;
    if (got < MORLEWEN_FRAME_BODY || rest > LARGEST - MORLEWEN_FRAME_BODY || fread(frame + MORLEWEN_FRAME_BODY, 1, rest, stdin) < rest)
        complain("a frame that is cut short, or is too long");
    return MORLEWEN_FRAME_BODY + rest;
}

int main(int argc, char **argv)
{
    uint8_t frame[LARGEST], back[NEGATIVE_SIZE];
    uint32_t commids[MORLEWEN_COMMIDS];
    uint64_t fields[MORLEWEN_FIELDS];
    size_t size;
    if (argc != 2 || argv[1][0] == 0 || strspn(argv[1], "an-") != strlen(argv[1])) {
        fprintf(stderr, "usage: partner PATTERN, of the letters a, n and -\n");
        return 2;
    }
    for (uint32_t own = 0; (size = next_frame(frame)) > 0; own++) {
        uint64_t answer = morlewen_unwrap(frame, size, commids, fields);
        if (morlewen_number(answer) != MORLEWEN_DONE || morlewen_count(answer) != MORLEWEN_DATA_MESSAGE)
            complain("a frame that is no good data message");
        char letter = argv[1][own % strlen(argv[1])];
        size = letter == 'a' ? morlewen_value(morlewen_acknowledge(own, commids[MORLEWEN_COMMID], back, sizeof back))
               : letter == 'n' ? turn_away(own, commids[MORLEWEN_COMMID], back)
                               : 0;
        if (fwrite(back, 1, size, stdout) < size || fflush(stdout) != 0)
            complain("standard output cannot be written");
    }
    return 0;
}

/* watch: prints a line for each message that arrives on standard input, the moment its last byte is in.
 * Exit status: 0 the input ended between messages, 1 a refusal, 2 the input cannot be read or the output written. */
#include <errno.h>
#include <inttypes.h>
#include <stdio.h>
#include <string.h>
#include <unistd.h>

#include "morlewen.h"

enum { PIECE = 4096 };

/* The next bytes of standard input, as many as are there; 0 at its end, below 0 where it cannot be read. */
static ssize_t next_piece(uint8_t *piece)
{
    ssize_t length;
    do
        length = read(STDIN_FILENO, piece, PIECE);
    while (length < 0 && errno == EINTR);
    return length;
}

static void print_message(uint32_t size, const uint64_t *fields)
{
    printf("type %" PRIu64 ", number %" PRIu64 ", %" PRIu32 " bytes\n", fields[MORLEWEN_FIELD_TYPE], fields[MORLEWEN_FIELD_NUMBER], size);
    fflush(stdout);
}

/* Gives the feed a piece until all of it is used, or something is refused: the answer that refused, and 0 otherwise. A call uses a
 * byte at least, or refuses. */
static uint64_t take(morlewen_feed *feed, const uint8_t *piece, size_t length, uint64_t *position)
{
    uint64_t fields[MORLEWEN_FIELDS];
    while (length > 0) {
        uint64_t answer = morlewen_feed_take(feed->kept, feed->numbers, piece, length, fields);
        piece += morlewen_count(answer);
        length -= morlewen_count(answer);
        *position += morlewen_count(answer);
        if (morlewen_number(answer) != MORLEWEN_DONE)
            return answer;
        if (morlewen_value(answer) > 0)
            print_message(morlewen_value(answer), fields);
    }
    return 0;
}

/* The refusal, and after how many bytes it was told; one by reading, 1 to 7, has a place in its message. */
static void print_refusal(uint64_t answer, uint64_t position)
{
    printf("refused %u", morlewen_number(answer));
    if (morlewen_number(answer) <= MORLEWEN_BAD_INTEGRITY)
        printf(" at place %" PRIu32, morlewen_value(answer));
    printf(" after %" PRIu64 " bytes\n", position);
}

int main(void)
{
    static morlewen_feed feed; /* all zeros: a new one */
    uint8_t piece[PIECE];
    uint64_t position = 0;
    uint64_t refusal = 0;
    ssize_t length = 0;
    while (refusal == 0 && !ferror(stdout) && (length = next_piece(piece)) > 0)
        refusal = take(&feed, piece, (size_t)length, &position);
    if (length < 0) {
        fprintf(stderr, "watch: standard input: %s\n", strerror(errno));
        return 2;
    }
    if (refusal == 0)
        refusal = morlewen_feed_end(feed.numbers);
    if (refusal != 0)
        print_refusal(refusal, position);
    if (fflush(stdout) != 0 || ferror(stdout)) {
        fprintf(stderr, "watch: standard output cannot be written\n");
        return 2;
    }
    return refusal == 0 ? 0 : 1;
}

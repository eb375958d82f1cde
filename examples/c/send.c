/* send GOLDEN RESENDS MILLISECONDS: sends the live messages of a golden file as Class D frames on standard output, one in flight at a
 * time, and takes what comes back from standard input. A message that nothing comes back for in so many milliseconds has timed out.
 * At the end, and before a complaint about the link, it tells on standard error what became of each record. A record's number is its
 * message's COMMID. Writing has no limit of time: the other end must read.
 * Exit status: 0 every message was acknowledged, 1 one failed, or the golden file or RESENDS is refused, 2 a complaint. */
#define _POSIX_C_SOURCE 200809L
#include <errno.h>
#include <limits.h>
#include <poll.h>
#include <signal.h>
#include <stdio.h>
#include <stdlib.h>
#include <string.h>
#include <time.h>
#include <unistd.h>

#include "morlewen.h"

/* A byte more than the largest golden file, so that a longer one is refused and not cut short. */
enum { ROOM = MORLEWEN_LARGEST_FILE + 1, RECORDS = MORLEWEN_LARGEST_FILE / MORLEWEN_RECORD_SIZE };

/* The frame around a message, and the most bytes of what comes back that are kept. */
enum { AROUND = MORLEWEN_FRAME_BODY + 1, BACK = 4096 };

/* A negative acknowledgment has type 3 in S-9356, and the COMMID first in its body; its error code is not looked at. morlewen_unwrap
 * refuses it, as 64. */
enum { TYPE_PLACE = 6, LENGTH_PLACE = 8, NEGATIVE = 3, STX = 2 };

enum back { NOTHING, ACKNOWLEDGED, REFUSED, OTHER };

static uint8_t golden[ROOM];
static size_t golden_length;
static morlewen_sender sender;
static uint8_t came[BACK];
static size_t came_length;
static uint32_t records;
static const char *fates[RECORDS];
static unsigned times[RECORDS];

static void complain(const char *what, const char *why)
{
    fprintf(stderr, "send: %s: %s\n", what, why);
    exit(2);
}

/* A number in digits, up to the largest int. */
static int number(const char *word)
{
    errno = 0;
    long n = strtol(word, NULL, 10);
    if (*word == 0 || word[strspn(word, "0123456789")] != 0 || errno != 0 || n > INT_MAX)
        complain(word, "no number of milliseconds or resends");
    return (int)n;
}

static void read_golden(const char *name)
{
    FILE *file = fopen(name, "rb");
    if (file == NULL)
        complain(name, strerror(errno));
    golden_length = fread(golden, 1, ROOM, file);
    if (ferror(file))
        complain(name, strerror(errno));
    fclose(file);
}

/* Tells each record's fate; whether none failed. One that has none yet was sent, and is in flight, or waits. */
static int tell_fates(void)
{
    int good = 1;
    for (uint32_t record = 0; record < records; record++) {
        const char *fate = fates[record] != NULL ? fates[record] : times[record] > 0 ? "in flight" : "waiting";
        fprintf(stderr, "record %u: %s, sent %u time%s\n", (unsigned)record, fate, times[record], times[record] == 1 ? "" : "s");
        good = good && strcmp(fate, "failed") != 0;
    }
    return good;
}

static void give_up(const char *what, const char *why)
{
    tell_fates();
    complain(what, why);
}

static uint32_t big_endian(const uint8_t *bytes)
{
    return (uint32_t)bytes[0] << 24 | (uint32_t)bytes[1] << 16 | (uint32_t)bytes[2] << 8 | bytes[3];
}

/* Sends a record's message: the file was checked, so there is one, and the frame has room. */
static void transmit(uint32_t record)
{
    uint64_t part[MORLEWEN_PART];
    uint8_t frame[AROUND + MORLEWEN_MESSAGE_ROOM];
    morlewen_step(golden, golden_length, record, part);
    uint64_t wrapped = morlewen_wrap(golden + part[MORLEWEN_PART_PLACE], part[MORLEWEN_PART_SIZE], record, frame, sizeof frame);
    for (size_t done = 0; done < morlewen_value(wrapped);) {
        ssize_t wrote = write(STDOUT_FILENO, frame + done, morlewen_value(wrapped) - done);
        if (wrote < 0 && errno != EINTR)
            give_up("standard output", strerror(errno));
        if (wrote > 0)
            done += (size_t)wrote;
    }
    times[record]++;
}

/* Does what an answer of the sender says. One that is refused, as 72, was for nobody in flight. */
static void follow(uint64_t answer, uint32_t record)
{
    if (morlewen_number(answer) != MORLEWEN_DONE)
        return;
    switch (morlewen_count(answer)) {
    case MORLEWEN_SENT:
    case MORLEWEN_AGAIN:
        transmit(record);
        return;
    case MORLEWEN_SETTLED:
    case MORLEWEN_SETTLED_NEXT:
        fates[record] = "acknowledged";
        break;
    case MORLEWEN_FAILED:
    case MORLEWEN_FAILED_NEXT:
        fates[record] = "failed";
        break;
    default:
        return;
    }
    if (morlewen_count(answer) == MORLEWEN_SETTLED_NEXT || morlewen_count(answer) == MORLEWEN_FAILED_NEXT)
        transmit(morlewen_value(answer));
}

/* Submits records from this one on, until the sender is full: the first that it has no room for. A retired one is passed over. */
static uint32_t submit_from(uint32_t record)
{
    for (; record < records; record++) {
        uint64_t part[MORLEWEN_PART];
        if (morlewen_is_retired(morlewen_step(golden, golden_length, record, part))) {
            fates[record] = "retired";
            continue;
        }
        uint64_t answer = morlewen_sender_submit(sender.waiting, sender.numbers, record);
        if (morlewen_number(answer) == MORLEWEN_SENDER_FULL)
            break;
        follow(answer, record);
    }
    return record;
}

/* How many bytes of what came are one whole frame: 0 where more are to come. */
static size_t whole_frame(void)
{
    if (came_length > 0 && came[0] != STX)
        give_up("standard input", "bytes that are no frame");
    if (came_length < AROUND || came_length < AROUND + (uint64_t)big_endian(came + LENGTH_PLACE))
        return 0;
    return morlewen_frame_first(came, came_length);
}

/* Takes one frame off what came, and says what it is and of which COMMID. */
static enum back take_frame(size_t size, uint32_t *commid)
{
    enum back back = OTHER;
    uint32_t commids[MORLEWEN_COMMIDS];
    uint64_t fields[MORLEWEN_FIELDS];
    uint64_t answer = morlewen_unwrap(came, size, commids, fields);
    if (morlewen_number(answer) == MORLEWEN_DONE && morlewen_count(answer) == MORLEWEN_ACKNOWLEDGMENT) {
        *commid = commids[MORLEWEN_ACKNOWLEDGED];
        back = ACKNOWLEDGED;
    } else if (morlewen_number(answer) == MORLEWEN_FRAME_TYPE && came[TYPE_PLACE] == NEGATIVE && size >= AROUND + 4) {
        *commid = big_endian(came + MORLEWEN_FRAME_BODY);
        back = REFUSED;
    }
    came_length -= size;
    memmove(came, came + size, came_length);
    return back;
}

static int64_t milliseconds_now(void)
{
    struct timespec now;
    clock_gettime(CLOCK_MONOTONIC, &now);
    return (int64_t)now.tv_sec * 1000 + now.tv_nsec / 1000000;
}

/* Takes in more of what comes back, until the deadline: whether it is not past yet. */
static int await_more(int64_t deadline)
{
    struct pollfd input = {.fd = STDIN_FILENO, .events = POLLIN};
    int64_t left = deadline - milliseconds_now();
    if (left <= 0)
        return 0;
    if (came_length == BACK)
        give_up("standard input", "a frame is too long");
    int ready = poll(&input, 1, left < INT_MAX ? (int)left : INT_MAX);
    ssize_t got = ready > 0 ? read(STDIN_FILENO, came + came_length, BACK - came_length) : 0;
    if ((ready < 0 || got < 0) && errno != EINTR)
        give_up("standard input", strerror(errno));
    if (ready > 0 && got == 0)
        give_up("standard input", "it ended while a message was in flight");
    if (got > 0)
        came_length += (size_t)got;
    return 1;
}

/* What comes back about a message, which is nothing where the deadline goes by. Other frames are passed over. */
static enum back next_back(int64_t deadline, uint32_t *commid)
{
    for (;;) {
        size_t size = whole_frame();
        enum back back = size > 0 ? take_frame(size, commid) : OTHER;
        if (back != OTHER)
            return back;
        if (size == 0 && !await_more(deadline))
            return NOTHING;
    }
}

/* Tells the sender what came back, or that nothing did, of the message in flight. */
static uint64_t tell_sender(enum back back, uint32_t commid)
{
    switch (back) {
    case ACKNOWLEDGED:
        return morlewen_sender_ack(sender.waiting, sender.numbers, commid);
    case REFUSED:
        return morlewen_sender_nak(sender.waiting, sender.numbers, commid);
    default:
        return morlewen_sender_time_out(sender.waiting, sender.numbers, commid);
    }
}

/* A message has its time from when it is sent; what comes back about another one does not lengthen it. */
static void send_all(int milliseconds)
{
    uint32_t next = submit_from(0);
    int64_t deadline = milliseconds_now() + milliseconds;
    uint64_t flight;
    while (morlewen_count(flight = morlewen_sender_flight(sender.numbers)) > 0) {
        uint32_t commid = morlewen_value(flight);
        enum back back = next_back(deadline, &commid);
        uint64_t answer = tell_sender(back, commid);
        follow(answer, commid);
        if (morlewen_number(answer) == MORLEWEN_DONE)
            deadline = milliseconds_now() + milliseconds;
        next = submit_from(next);
    }
}

int main(int argc, char **argv)
{
    if (argc != 4) {
        fprintf(stderr, "usage: send GOLDEN RESENDS MILLISECONDS\n");
        return 2;
    }
    signal(SIGPIPE, SIG_IGN);
    read_golden(argv[1]);
    int resends = number(argv[2]), milliseconds = number(argv[3]);
    uint64_t checked = morlewen_check(golden, golden_length);
    if (morlewen_number(checked) != MORLEWEN_DONE) {
        fprintf(stderr, "send: the golden file is refused: %u, record %u\n", morlewen_number(checked), morlewen_count(checked));
        return 1;
    }
    if (morlewen_number(morlewen_sender_start(sender.numbers, (uint64_t)resends)) != MORLEWEN_DONE) {
        fprintf(stderr, "send: refused %u, more than %u resends\n", MORLEWEN_TOO_MANY_RESENDS, MORLEWEN_MOST_RESENDS);
        return 1;
    }
    records = morlewen_count(checked);
    send_all(milliseconds);
    return tell_fates() ? 0 : 1;
}

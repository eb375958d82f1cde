/* Morlewen: EMP envelopes (AAR S-9354), a judge of them, golden files of reference messages, messages as they arrive,
 * the Class D frames that carry them (AAR S-9356), and what becomes of each message sent, for C and C++.
 *
 * Link libexports.a (README.md says how it is built). The source of each function is proved to give one answer to any input, and
 * to end; that the answer is the one told here is tested, against a program written from the documents and from this header
 * (docs/DECISIONS.md says where not from them alone). None allocates, prints, keeps state or touches a file, so all may be called
 * from several threads, on storage of their own. docs/RULES.md has the rules behind the numbers.
 *
 * What the caller owes, since C cannot check it:
 *   - a pointer and the length behind it describe memory that is yours to read (const) or to write, and that nothing
 *     else writes during the call; a pointer is never NULL, also where the length is 0;
 *   - what is lent to be written overlaps nothing else that is lent in the same call.
 * Any content, any length and any number is fine.
 *
 * THE ANSWER. A function that can refuse, has two things to tell, or tells a size returns one 64-bit number of four slots;
 * morlewen_frame_first alone returns a plain size, which may be larger than a slot.
 *
 *   bits  0-7   number    0: done. Otherwise the refusal, by the numbers below. Look here first: what the others tell goes by it.
 *   bits  8-15  reading   with 25, 31, 34 and 67, and from the judge's two functions, the number (1-7) that reading gives; otherwise 0.
 *               retired   done by morlewen_line and morlewen_step: 1 of a retired record, 0 of a live one; morlewen_is_retired looks at
 *                         the number too. These bits have two names, since no answer tells both.
 *   bits 16-31  count     a number of records, or what else a function says; otherwise 0.
 *   bits 32-63  value     done: a length, a total, or what else a function says; otherwise 0.
 *                         refused by reading, 1 to 7, or passed on by 25, 31, 34 and 67: the place in the message; otherwise 0.
 *
 * THE PLACE. What the broken rule of reading names, counted from the first byte of the message: with 1 how many bytes it has; with 2
 * place 0, the header version; with 3 place 4, the flags; with 4 place 16, the variable header's size, V; with 5 place 5, the data
 * length, D; with 6 place 21, the first address; with 7 the first byte of the integrity field, 17 + V + D, which is 4 before the end.
 * Every place but that of 1 lies inside the message. A record's message begins 2 bytes behind the first of its 512, and
 * a frame's at MORLEWEN_FRAME_BODY.
 *
 * A refusal writes nothing: every buffer, array and list that was lent holds what it held before the call. A feed is no such
 * buffer: it is the state that morlewen_feed_take and morlewen_feed_end move on, and they say to what. Of a sender a refusal changes
 * nothing, as of any buffer. */
#ifndef MORLEWEN_H
#define MORLEWEN_H

#include <stddef.h>
#include <stdint.h>

#ifdef __cplusplus
extern "C" {
#endif

static inline unsigned morlewen_number(uint64_t answer) { return (unsigned)(answer & 0xff); }
static inline unsigned morlewen_reading(uint64_t answer) { return (unsigned)(answer >> 8 & 0xff); }
/* Of an answer of morlewen_line or morlewen_step, and of no other. */
static inline int morlewen_is_retired(uint64_t answer) { return (answer & 0xffff) == 0x100; }
static inline unsigned morlewen_count(uint64_t answer) { return (unsigned)(answer >> 16 & 0xffff); }
static inline uint32_t morlewen_value(uint64_t answer) { return (uint32_t)(answer >> 32); }

/* The refusals. Where several apply to one message, record, frame or event, the one that stands first here is given; but 38 comes before
 * 31, and a feed gives the one that its bytes settle first. Of the records that morlewen_check, morlewen_find,
 * morlewen_find_by_halving and morlewen_ascending open the first that is refused decides; the two finds end at a match too, and
 * morlewen_ascending where the order breaks. morlewen_line, morlewen_step, morlewen_compare and morlewen_retire open the one
 * that they are asked for. morlewen_retired_records opens all, and none decides. */
enum {
    MORLEWEN_DONE = 0,
    /* reading a message; each has a place */
    MORLEWEN_TOO_SHORT = 1,              /* fewer than 21 bytes */
    MORLEWEN_WRONG_VERSION = 2,          /* the header version is not 4 */
    MORLEWEN_BAD_FLAGS = 3,              /* an unassigned flag is set, or the integrity kind is 3 */
    MORLEWEN_BAD_VARIABLE_SIZE = 4,      /* the variable header's size is 1 to 5, or above 132 */
    MORLEWEN_WRONG_LENGTH = 5,           /* the sizes in the header do not add up to the length lent */
    MORLEWEN_BAD_ADDRESSES = 6,          /* source and destination do not fill their room, each with one closing zero, in 64 bytes */
    MORLEWEN_BAD_INTEGRITY = 7,          /* kind none and the field is not 0, or kind CRC and it is not the CRC */
    /* writing a message */
    MORLEWEN_FLAGS_REFUSED = 11,         /* the flags would be refused as 3 */
    MORLEWEN_ENDS_REFUSED = 12,          /* an address over 63 bytes or with a zero in it, or one given where addressing is absent */
    MORLEWEN_BODY_TOO_LONG = 13,         /* the body is over 16,777,215 bytes */
    MORLEWEN_STRAY_INTEGRITY = 14,       /* an integrity number that is not 0, of kind none or CRC */
    MORLEWEN_NO_ROOM = 15,               /* the buffer is shorter than the message */
    /* golden files and their records */
    MORLEWEN_NOT_A_GOLDEN_FILE = 21,     /* the length is no multiple of 512, or above 65,536 */
    MORLEWEN_NO_RECORD = 22,             /* the record asked for is not there */
    MORLEWEN_BAD_LENGTH = 23,            /* the stored length, without its top bit, is below 21 or above 510 */
    MORLEWEN_NOT_CLEAR = 24,             /* a byte after the message is not zero */
    MORLEWEN_RECORD_REFUSED = 25,        /* reading refuses the record's message; `reading` says why, `value` where */
    MORLEWEN_NAME_TAKEN = 26,            /* the record is live, and an earlier live one has its type and number; morlewen_check alone gives it */
    MORLEWEN_NOT_FOUND = 27,             /* every record is good, and no live one has that type and number; by halving, none that was opened */
    MORLEWEN_RADIO_REFUSED = 31,         /* reading refuses the radio's message; `reading` says why, `value` where */
    /* 32 is not used again: of two messages that reading accepts neither is a proper beginning of the other */
    MORLEWEN_MESSAGE_TOO_LONG = 33,      /* a message for a record is over 510 bytes */
    MORLEWEN_MESSAGE_REFUSED = 34,       /* reading refuses that message; `reading` says why, `value` where */
    MORLEWEN_WRONG_BUFFER = 35,          /* the buffer for a record is not 512 bytes */
    MORLEWEN_ALREADY_RETIRED = 36,       /* the record to be retired is retired */
    MORLEWEN_WRONG_COPY = 37,            /* the buffer for the copy has another length than the file, shorter or longer */
    MORLEWEN_RECORD_RETIRED = 38,        /* the record to be compared is retired; morlewen_compare gives it after 25 and before 31 */
    /* QoS */
    MORLEWEN_QOS_DOES_NOT_FIT = 41,      /* one of the five numbers does not fit its bits */
    /* messages as they arrive */
    MORLEWEN_FEED_TOO_LONG = 51,         /* the announced length is over 510 bytes */
    MORLEWEN_FEED_CUT = 52,              /* the end came inside a message */
    /* Class D frames; wrapping a message gives 67 before 68 */
    MORLEWEN_FRAME_TOO_SHORT = 61,       /* shorter than a frame with an empty body, which has 13 bytes */
    MORLEWEN_NO_STX = 62,                /* the first byte is not STX, 02 */
    MORLEWEN_FRAME_VERSION = 63,         /* the protocol version or the message version is not 2 */
    MORLEWEN_FRAME_TYPE = 64,            /* the type is neither data message, 1, nor acknowledgment, 2 */
    MORLEWEN_FRAME_LENGTH = 65,          /* the data length does not put ETX last, or is not 4 in an acknowledgment */
    MORLEWEN_NO_ETX = 66,                /* the last byte is not ETX, 03 */
    MORLEWEN_FRAME_MESSAGE_REFUSED = 67, /* reading refuses the message; `reading` says why, `value` where */
    MORLEWEN_FRAME_NO_ROOM = 68,         /* the buffer is shorter than the frame */
    MORLEWEN_FRAME_TOO_LONG = 69,        /* longer than a data length can state: no message is, and it is never given */
    /* what became of each message sent */
    MORLEWEN_SENDER_FULL = 70,           /* 16 messages wait already */
    MORLEWEN_SENDER_KNOWN = 71,          /* the COMMID waits or is in flight */
    MORLEWEN_SENDER_NOT_IN_FLIGHT = 72,  /* the COMMID is not the one in flight */
    MORLEWEN_TOO_MANY_RESENDS = 73       /* more than 10 resends */
};

enum {
    MORLEWEN_RECORD_SIZE = 512,
    MORLEWEN_LARGEST_FILE = 65536,
    MORLEWEN_MESSAGE_ROOM = 510
};

/* ---- The integrity sum ---- */

/* The CRC-32 of the bytes: reflected polynomial EDB88320, start all ones, final inversion. Of no bytes it is 0. */
uint32_t morlewen_crc(const uint8_t *bytes, size_t length);

/* ---- Envelopes ---- */

/* Where morlewen_read puts each field. An end is given without its closing zero. Where there is no variable header, the seven
 * numbers from MORLEWEN_FIELD_ADDRESSED to MORLEWEN_FIELD_DESTINATION_SIZE are 0. Places count from the message's first byte. */
enum {
    MORLEWEN_FIELD_TYPE = 0,
    MORLEWEN_FIELD_VERSION = 1, /* the message version; the header version is always 4 */
    MORLEWEN_FIELD_FLAGS = 2,
    MORLEWEN_FIELD_NUMBER = 3,
    MORLEWEN_FIELD_TIME = 4,
    MORLEWEN_FIELD_ADDRESSED = 5, /* 1: there is a variable header; 0: there is none */
    MORLEWEN_FIELD_TTL = 6,
    MORLEWEN_FIELD_QOS = 7,
    MORLEWEN_FIELD_SOURCE_PLACE = 8,
    MORLEWEN_FIELD_SOURCE_SIZE = 9,
    MORLEWEN_FIELD_DESTINATION_PLACE = 10,
    MORLEWEN_FIELD_DESTINATION_SIZE = 11,
    MORLEWEN_FIELD_BODY_PLACE = 12,
    MORLEWEN_FIELD_BODY_SIZE = 13,
    MORLEWEN_FIELD_KIND = 14,      /* the integrity kind, MORLEWEN_KIND_NONE and so on */
    MORLEWEN_FIELD_INTEGRITY = 15, /* the integrity field's number */
    MORLEWEN_FIELDS = 16
};

enum { MORLEWEN_KIND_NONE = 0, MORLEWEN_KIND_CRC = 1, MORLEWEN_KIND_APPLICATION = 2 };

/* Reads a message. Done: every one of the sixteen fields is written. Refused: 1 to 7, with the place. */
uint64_t morlewen_read(const uint8_t *bytes, size_t length, uint64_t fields[MORLEWEN_FIELDS]);

/* Writes a message to the front of the buffer. The flags alone set the integrity kind; `addressed` is 0 for no variable
 * header and anything else for one with this TTL and QoS (which do not matter at 0); the ends are given without their closing
 * zero; `integrity` is the number of an application's own kind and 0 for the other two.
 * Done: `value` is the message's length, and the buffer beyond it is untouched. Refused: 11 to 15. */
uint64_t morlewen_write(uint16_t type, uint8_t version, uint8_t flags, uint32_t number, uint32_t time,
                        uint8_t addressed, uint16_t ttl, uint16_t qos,
                        const uint8_t *source, size_t source_length,
                        const uint8_t *destination, size_t destination_length,
                        const uint8_t *body, size_t body_length,
                        uint32_t integrity, uint8_t *buffer, size_t room);

/* Reads a message and writes it again from its fields: the same bytes at the front of the buffer.
 * Done: `value` is the length, and the buffer beyond it is untouched. Refused: 1 to 7, with the place, or 15. */
uint64_t morlewen_rewrite(const uint8_t *bytes, size_t length, uint8_t *buffer, size_t room);

/* The five numbers of a QoS field: service request (0-7), special handling (0-15), network preference, priority and
 * class (each 0-7). */
enum {
    MORLEWEN_SERVICE_REQUEST = 0,
    MORLEWEN_SPECIAL_HANDLING = 1,
    MORLEWEN_NETWORK_PREFERENCE = 2,
    MORLEWEN_PRIORITY = 3,
    MORLEWEN_CLASS = 4,
    MORLEWEN_QOS_PARTS = 5
};

/* Splits a QoS field. Any field can be split. */
void morlewen_qos_split(uint16_t qos, uint8_t parts[MORLEWEN_QOS_PARTS]);

/* Joins a QoS field. Done: `value` is the field. Refused: 41. */
uint64_t morlewen_qos_join(uint8_t service_request, uint8_t special_handling, uint8_t network_preference,
                           uint8_t priority, uint8_t message_class);

enum { MORLEWEN_IN_TIME = 0, MORLEWEN_LATE = 1, MORLEWEN_NO_CLOCK = 2 };

/* Whether a message is late at a clock in seconds, counted from the second at which it entered the messaging infrastructure:
 * late if the clock is past entry + TTL, a whole number that does not run round, and else in time; no answer
 * (MORLEWEN_NO_CLOCK) if `addressed` is 0 or the TTL is 0. `addressed` and `ttl` are as morlewen_read gives them, any `addressed`
 * but 0 being one; entry and clock are any two numbers, counted from one moment, and a clock before the entry is in time. The
 * message's own time and its format do not matter. Never refused. */
uint8_t morlewen_lateness_from_entry(uint8_t addressed, uint16_t ttl, uint64_t entry, uint64_t clock);

/* From an old message number to a new one: new minus old, as a signed number. The numbers run round. */
int32_t morlewen_distance(uint32_t old_number, uint32_t new_number);

enum { MORLEWEN_REPEAT = 0, MORLEWEN_NEXT = 1, MORLEWEN_AHEAD = 2, MORLEWEN_BEHIND = 3 };

/* The same in words. `count` is one of the four above; `value` is by how many numbers (0 for a repeat, 1 for the next).
 * Never refused. */
uint64_t morlewen_sequence(uint32_t old_number, uint32_t new_number);

/* ---- The judge ----
 * A second reader, for a message that was refused: it tries each of the seven rules of reading by itself, whatever the others
 * find, and finds the CRC by plain division, which is slow. It is not needed to read. */

/* What became of a rule. Not judged, which counts as not broken: its bytes are not all there, or, of rule 6, the variable
 * header's size is not 6 to 132. */
enum { MORLEWEN_KEPT = 0, MORLEWEN_BROKEN = 1, MORLEWEN_NOT_JUDGED = 2 };

/* How many rules there are. Rule N has the number N of the refusals of reading, and its verdict stands at N - 1. */
enum { MORLEWEN_RULES = 7 };

/* Judges any bytes. Every one of the seven verdicts is written, and it is never refused. `reading` is the lowest number of a
 * broken rule and `value` its place, both 0 where none is broken: with that number and that place morlewen_read answers these bytes.
 * Rule 1 is always judged. 2 needs byte 0; 3 byte 4; 4 byte 16, which holds V; 5 bytes 5 to 7, which hold D, and 16; 6 bytes 21
 * to 16 + V; 7 the four bytes from place 17 + V + D, wherever the bytes lent end, and it takes the CRC over all before them. The
 * kind is bits 3 and 4 of the flags, whatever other rules are broken; of kinds 2 and 3 rule 7 asks nothing of those four bytes but that they are there. */
uint64_t morlewen_judge(const uint8_t *bytes, size_t length, uint8_t verdicts[MORLEWEN_RULES]);

/* The same answer and the same verdicts, and beside them the place of each broken rule, at N - 1 as its verdict, by the table of
 * THE PLACE above, wherever the bytes lent end: with 7 it is 17 + V + D. The place of a rule that is not broken is written as 0. */
uint64_t morlewen_judge_places(const uint8_t *bytes, size_t length, uint8_t verdicts[MORLEWEN_RULES],
                               uint64_t places[MORLEWEN_RULES]);

/* ---- Golden files ----
 * `file` is the whole file in memory. It is only ever read. Records count from 0. A record whose stored length has its top bit
 * set is marked as retired: the other 15 bits are the length, which 23 judges, and else it is judged as any record. A good record
 * is retired or live; a bad one is neither. No sum guards the mark: one flipped bit retires a reference, and the file still checks. */

/* How many records there are, good or bad. Done: `count`. Refused: 21. */
uint64_t morlewen_records(const uint8_t *file, size_t length);

/* How many records are good and retired. It reads every record, and a bad one counts as none. Done: `count`. Refused: 21. */
uint64_t morlewen_retired_records(const uint8_t *file, size_t length);

/* Checks every record, one after the other. Done: all are good, no two live ones have the same type and message number, and
 * `count` is how many there are, retired ones too. Refused: 21, or 23 to 26 for the first record that is bad, or is live and has
 * the type and number of an earlier live one; its number is in `count` (0 with 21). With 26 morlewen_line of that record tells
 * both, and morlewen_find of them gives the earlier one. */
uint64_t morlewen_check(const uint8_t *file, size_t length);

/* Opens records from the first, until one is bad, or is live and has this type and message number. Retired ones are passed over.
 * `count` is how many were opened, retired ones too, whatever the answer. Done: the record found is the last one opened, and its
 * number is in `value`.
 * Refused: 21, 23 to 25 for the bad record, or 27. */
uint64_t morlewen_find(const uint8_t *file, size_t length, uint16_t type, uint32_t number);

/* Finds by halving, for a file that passes morlewen_check and of which morlewen_ascending says that it is in order: there it gives
 * the record that morlewen_find gives, or 27 where that gives 27. In any file it opens at most 8 records. Of the
 * records from `first` up to `end`, which is one past the last of them and at first the count of all, it opens the one
 * at (first + end) / 2, rounded down, and where there are none it answers 27. A bad record ends it, and so does a
 * match, by 27 where it is retired. Else it goes on with the records behind that one where that one's type and number
 * come before those sought, and with those before it where they come after. In any other file a record that it gives is
 * still good, live and of this type and number, and 27 says nothing about the records that were not opened. `count` is
 * how many were opened, whatever the answer.
 * Done: the record's number is in `value`. Refused: 21, 23 to 25 for a bad record that was opened, whose number is not
 * told, or 27. */
uint64_t morlewen_find_by_halving(const uint8_t *file, size_t length, uint16_t type, uint32_t number);

/* Whether the records, retired ones too, stand in strictly ascending order of type, then message number. It opens them from the
 * first. Done: `value` is 1: they do, as the records of an empty file and a single record do; or `value` is 0, and `count` is the
 * first record that does not come after the one before it. Refused: 21, or 23 to 25 for a bad record that it comes to before the
 * order breaks, whose number is in `count` (0 with 21). Two records of the same type and number are not in order, retired or live. */
uint64_t morlewen_ascending(const uint8_t *file, size_t length);

enum { MORLEWEN_LINE_TYPE = 0, MORLEWEN_LINE_NUMBER = 1, MORLEWEN_LINE_SIZE = 2, MORLEWEN_LINE = 3 };

/* One record as a listing shows it: its message's type, number and length, into `line`. Done: morlewen_is_retired tells whether
 * it is retired. Refused: 21 to 25. */
uint64_t morlewen_line(const uint8_t *file, size_t length, size_t record, uint64_t line[MORLEWEN_LINE]);

enum { MORLEWEN_PART_PLACE = 0, MORLEWEN_PART_SIZE = 1, MORLEWEN_PART = 2 };

/* One step of a walk over the file. The caller keeps the number of the next record, from 0 on, and adds `count` to it after
 * each step: 1, also where this record is refused, or 0 at the end and with 21, where a walk stays.
 * Done: `value` is the size of the message, `part` its first place in the file and its size, and morlewen_is_retired tells
 * whether the record is retired; or `value` is 0: the end, with 0 there, and `part` is as it was. Refused: 21, 23 to 25. */
uint64_t morlewen_step(const uint8_t *file, size_t length, size_t record, uint64_t part[MORLEWEN_PART]);

/* Compares one record with a radio's message. Done: `value` is how many places differ, 0 where the two are the same; a place
 * that only the longer has differs. The places go into `places`, ascending, as far as it has room; the rest of it is
 * untouched. Refused: 21 to 25, then 38, then 31. */
uint64_t morlewen_compare(const uint8_t *file, size_t length, size_t record, const uint8_t *radio, size_t radio_length,
                          uint32_t *places, size_t room);

/* Makes a live record of a message: 512 bytes into the buffer. Refused: 33 to 35. */
uint64_t morlewen_make(const uint8_t *message, size_t length, uint8_t *buffer, size_t room);

/* Retires a record: the file goes into the buffer with the top bit of that record's stored length set, and no other byte
 * different. The buffer must have the file's length, no less and no more. Refused: 21 to 25 for that record, then 36, then 37. */
uint64_t morlewen_retire(const uint8_t *file, size_t length, size_t record, uint8_t *buffer, size_t room);

/* ---- Messages as they arrive ----
 * A feed is storage that the caller owns: the bytes kept of the message that is on its way, and two numbers. All zeros is a
 * new feed, and any other content is some feed too. It takes messages of at most 510 bytes. */

enum {
    MORLEWEN_FEED_COUNT = 0,    /* how many bytes, at the front of those kept, belong to the message */
    MORLEWEN_FEED_STANDING = 1, /* how the feed stands */
    MORLEWEN_FEED_NUMBERS = 2,
    MORLEWEN_FEED_ROOM = 510
};

/* How a feed stands. 1 to 7, 51 and 52: refused, by that number (1 and 5 only in storage that no calls lead to). 0: inside a
 * message, of which so many bytes are in, or between messages with none; a MORLEWEN_FEED_COUNT of 510 or more stands for none.
 * 255: the message is whole. Any other number stands for 255, and morlewen_feed_take and morlewen_feed_end put 255 in its
 * place, also where nothing else changes.
 * The place of a refusal that stands is not stored: its number and MORLEWEN_FEED_COUNT tell it, as the table of THE PLACE does for a
 * message of so many bytes. With 1 it is that count and with 7 it is 4 less (0 where fewer than 4 are in), a count over 510
 * standing for 510; 51 and 52 have none. (In storage that no calls lead to, fewer bytes may be in than the place says.) */
enum { MORLEWEN_FEED_INSIDE = 0, MORLEWEN_FEED_WHOLE = 255 };

/* A feed in one piece, for whom it suits: morlewen_feed_take(feed.kept, feed.numbers, ..). */
typedef struct {
    uint64_t numbers[MORLEWEN_FEED_NUMBERS];
    uint8_t kept[MORLEWEN_FEED_ROOM];
} morlewen_feed;

/* Takes a piece: uses its bytes until a message is complete, something is refused, or the piece is used up. The slot `count` is
 * how many bytes were used, at most 510, whatever the answer; what is left of the piece goes into the next call. Of a piece that
 * is not empty a byte at least is used, unless a refusal stands. Bytes go to their places among those kept, and the others there
 * stay.
 * Done: `value` is the size of the message found, its bytes are the first of those kept until the next byte or a restart, and
 * every one of the sixteen fields is written as morlewen_read would; or `value` is 0: none yet, and `fields` is as it was.
 * Refused: with the 17th byte of a message 2, 3, 4 or 51; with the last byte of the announced length 6 or 7. `value` is the place
 * in the message, 0 with 51. That byte is the last one used, MORLEWEN_FEED_COUNT bytes are in with it, and `fields` is as it was.
 * The refusal stands: each later call, of morlewen_feed_end too, uses nothing, changes nothing and answers it again with its
 * place, until morlewen_feed_restart. An empty piece uses nothing, and changes nothing but a number that stands for 255.
 * In storage that no calls lead to, 17 bytes or more may be in that are refused already, or are complete already: then the next
 * byte settles it, by 2, 3, 4, 51, or by what morlewen_read answers to all the bytes that are in, 5 among that. */
uint64_t morlewen_feed_take(uint8_t kept[MORLEWEN_FEED_ROOM], uint64_t numbers[MORLEWEN_FEED_NUMBERS],
                            const uint8_t *piece, size_t length, uint64_t fields[MORLEWEN_FIELDS]);

/* The end of the bytes. Done: no byte of a further message is in (a new feed, or right after a message), and nothing changes but
 * a number that stands for 255. Refused: 52 inside a message, which then stands, with 0 for a place, or the refusal that stands
 * already, with its place. The bytes kept stay as they are, and how many are in too. */
uint64_t morlewen_feed_end(uint64_t numbers[MORLEWEN_FEED_NUMBERS]);

/* Makes the feed a new one, whatever it was: all zeros. */
void morlewen_feed_restart(uint8_t kept[MORLEWEN_FEED_ROOM], uint64_t numbers[MORLEWEN_FEED_NUMBERS]);

/* The message that was found, at the front of the bytes kept until the next byte or a restart: `value` is its size, or 0 where no
 * message is whole. A MORLEWEN_FEED_COUNT over 510 stands for 510. Never refused. */
uint64_t morlewen_feed_message(const uint8_t kept[MORLEWEN_FEED_ROOM], const uint64_t numbers[MORLEWEN_FEED_NUMBERS]);

/* ---- Class D frames ----
 * A frame has 13 bytes around its body: STX, the protocol version (a byte), COMMID (four), type (one), message version (one), data
 * length (four), then the body, then ETX; numbers are big-endian. The body of a data message is an EMP message, that of an
 * acknowledgment the COMMID that it acknowledges. Any number is a COMMID, 0 too, and a body may hold any bytes, STX and ETX too. */

enum {
    MORLEWEN_COMMID = 0,       /* the frame's own, in its header */
    MORLEWEN_ACKNOWLEDGED = 1, /* the one that an acknowledgment acknowledges, in its body; 0 of a data message */
    MORLEWEN_COMMIDS = 2
};

enum { MORLEWEN_DATA_MESSAGE = 1, MORLEWEN_ACKNOWLEDGMENT = 2 };

/* Where the message begins in every data message, and how long every acknowledgment is. */
enum { MORLEWEN_FRAME_BODY = 12, MORLEWEN_ACKNOWLEDGMENT_SIZE = 17 };

/* Unwraps one frame, which is all of the bytes. Done: both of `commids` are written, and `count` is MORLEWEN_DATA_MESSAGE: `value`
 * is the size of the message, which begins at MORLEWEN_FRAME_BODY, and every one of the sixteen fields is written as morlewen_read
 * would, with places from the message's first byte; or it is MORLEWEN_ACKNOWLEDGMENT: `value` is 0, and `fields` is as it was.
 * Refused: 61 to 67, the first that applies. */
uint64_t morlewen_unwrap(const uint8_t *frame, size_t length, uint32_t commids[MORLEWEN_COMMIDS],
                         uint64_t fields[MORLEWEN_FIELDS]);

/* Wraps a message as a data message, at the front of the buffer. Done: `value` is the frame's length, 13 more than the message's,
 * and the buffer beyond it is untouched. Refused: 67, then 68. */
uint64_t morlewen_wrap(const uint8_t *message, size_t length, uint32_t commid, uint8_t *buffer, size_t room);

/* Writes the acknowledgment of a COMMID, with a COMMID of its own, at the front of the buffer. Done: `value` is
 * MORLEWEN_ACKNOWLEDGMENT_SIZE, and the buffer beyond it is untouched. Refused: 68. */
uint64_t morlewen_acknowledge(uint32_t commid, uint32_t acknowledged, uint8_t *buffer, size_t room);

/* How many bytes at the front of a capture, which has frames end to end, the first frame takes: 13 and its data length; or all of
 * them, where fewer are there than that, or fewer than 13. Nothing else is looked at: morlewen_unwrap of these bytes tells what they
 * are, and a program that goes through a capture stops where they are refused. Of bytes that are there at least one is taken, of none
 * none. */
size_t morlewen_frame_first(const uint8_t *capture, size_t length);

/* ---- What became of each message sent ----
 * A sender is storage that the caller owns: the COMMIDs of the messages that wait, and four numbers. It sends nothing by itself. The
 * caller tells it what happens, and each answer says whether something is to be sent now: the message of the COMMID that the caller
 * gave, or with the two answers that end in NEXT the one that waited longest.
 *
 *                   submit                     ack
 *                      |                  +----------> acknowledged
 *        something is  |  nothing is      |
 *        in flight     |  in flight       |   nak or time-out,
 *           +----------+--------+         |   no resend left
 *           v                   v         |
 *        waiting ---------> in flight ----+----------> failed
 *           oldest first,       |   ^
 *           when the one in     |   |  nak or time-out, a resend left:
 *           flight has ended    +---+  it is sent again
 *
 * At most 16 messages wait, and at most one is in flight, which does not count among the 16. Each submission that is not refused is
 * exactly one of waiting, in flight, acknowledged and failed. A COMMID that is neither waiting nor in flight may be submitted again,
 * as a new submission; what comes late for the old one then counts for the new one. Any number is a COMMID, 0 too. What a sender
 * refuses changes nothing of it.
 *
 * Which COMMID a frame that comes back is about: of an acknowledgment morlewen_unwrap tells it, in commids[MORLEWEN_ACKNOWLEDGED]. A
 * negative acknowledgment, of type 3, it refuses as 64; its COMMID is the first four bytes of its body, at MORLEWEN_FRAME_BODY. */

enum { MORLEWEN_SENDER_PLACES = 16, MORLEWEN_MOST_RESENDS = 10 };

/* What the four numbers hold. All zeros is an empty sender whose messages are sent once and never again. */
enum {
    MORLEWEN_SENDER_SET = 0,    /* how many resends each message has */
    MORLEWEN_SENDER_COUNT = 1,  /* how many messages wait; their COMMIDs are in the first places, oldest first */
    MORLEWEN_SENDER_COMMID = 2, /* the COMMID in flight; not looked at where nothing is */
    MORLEWEN_SENDER_FLIGHT = 3, /* 0: nothing is in flight; 1: the one in flight has no resend left; 2: it has one left; and so on */
    MORLEWEN_SENDER_NUMBERS = 4
};

/* Any content is some sender, also what no calls lead to. Of SET the lowest 8 bits count, so up to 255 resends; a COUNT above 16 stands
 * for 16; of the COMMID the lowest 32 bits count; a FLIGHT that is not 0 stands for (FLIGHT - 1) modulo 256 resends left. Where messages
 * wait and nothing is in flight, one that is submitted and not refused goes out before them. */

/* A sender in one piece, for whom it suits: morlewen_sender_submit(sender.waiting, sender.numbers, commid). */
typedef struct {
    uint64_t numbers[MORLEWEN_SENDER_NUMBERS];
    uint32_t waiting[MORLEWEN_SENDER_PLACES];
} morlewen_sender;

/* What an event did, in the slot `count`. With MORLEWEN_SETTLED_NEXT and MORLEWEN_FAILED_NEXT `value` is the COMMID of the next
 * message, which may be 0; with the others it is 0. */
enum {
    MORLEWEN_SENT = 1,         /* the message submitted is to be sent now */
    MORLEWEN_WAITS = 2,        /* the message submitted waits */
    MORLEWEN_SETTLED = 3,      /* the one in flight is acknowledged, and none waits */
    MORLEWEN_SETTLED_NEXT = 4, /* the one in flight is acknowledged, and the next one is to be sent now */
    MORLEWEN_AGAIN = 5,        /* the one in flight is to be sent again now */
    MORLEWEN_FAILED = 6,       /* the one in flight failed, and none waits */
    MORLEWEN_FAILED_NEXT = 7   /* the one in flight failed, and the next one is to be sent now */
};

/* Makes the numbers an empty sender, with so many resends for each message. The places need not be cleared. Done: the whole answer is
 * 0. Refused: 73, and no sender is made: the numbers stay as they were. */
uint64_t morlewen_sender_start(uint64_t numbers[MORLEWEN_SENDER_NUMBERS], uint64_t resends);

/* The four events. Where one is done, the places behind those that wait are 0 afterwards, the COMMID among the numbers is 0 where
 * nothing is in flight, and no number has bits that do not count. */

/* A message is submitted. Done: MORLEWEN_SENT or MORLEWEN_WAITS. Refused: 70 where 16 wait, whatever the COMMID; else 71 where the
 * COMMID waits or is in flight. */
uint64_t morlewen_sender_submit(uint32_t waiting[MORLEWEN_SENDER_PLACES], uint64_t numbers[MORLEWEN_SENDER_NUMBERS], uint32_t commid);

/* The acknowledgment of a COMMID came. Done: MORLEWEN_SETTLED or MORLEWEN_SETTLED_NEXT. Refused: 72. */
uint64_t morlewen_sender_ack(uint32_t waiting[MORLEWEN_SENDER_PLACES], uint64_t numbers[MORLEWEN_SENDER_NUMBERS], uint32_t commid);

/* The receiver turned a COMMID away. Done: MORLEWEN_AGAIN, MORLEWEN_FAILED or MORLEWEN_FAILED_NEXT. Refused: 72. */
uint64_t morlewen_sender_nak(uint32_t waiting[MORLEWEN_SENDER_PLACES], uint64_t numbers[MORLEWEN_SENDER_NUMBERS], uint32_t commid);

/* Nothing came for a COMMID in time; the caller has the clock. The answer is that of morlewen_sender_nak, and so is what it does. */
uint64_t morlewen_sender_time_out(uint32_t waiting[MORLEWEN_SENDER_PLACES], uint64_t numbers[MORLEWEN_SENDER_NUMBERS], uint32_t commid);

/* How many wait: `count`. Their COMMIDs are the first so many of the places, oldest first, which are lent to be read. Never refused. */
uint64_t morlewen_sender_waiting(const uint32_t waiting[MORLEWEN_SENDER_PLACES], const uint64_t numbers[MORLEWEN_SENDER_NUMBERS]);

/* Which one is in flight: `count` is 0 where nothing is, and `value` too; else `count` is 1 more than the resends that it has left,
 * and `value` is its COMMID. Never refused. */
uint64_t morlewen_sender_flight(const uint64_t numbers[MORLEWEN_SENDER_NUMBERS]);

#ifdef __cplusplus
}
#endif

#endif

/* compare GOLDEN RECORD RADIO: holds a radio's message against one record of a golden file.
 * Exit status: 0 the same, 1 different or refused, 2 a bad argument or file. */
#include <errno.h>
#include <stdio.h>
#include <stdlib.h>
#include <string.h>

#include "morlewen.h"

enum { PLACES = 16 };

/* A byte more than the largest golden file, so that a longer one is refused and not cut short. */
enum { ROOM = MORLEWEN_LARGEST_FILE + 1 };

/* Reads a file, at most ROOM bytes of it. Ends the program where that fails. */
static size_t contents(const char *name, uint8_t *buffer)
{
    FILE *file = fopen(name, "rb");
    if (file == NULL) {
        fprintf(stderr, "compare: %s: %s\n", name, strerror(errno));
        exit(2);
    }
    size_t length = fread(buffer, 1, ROOM, file);
    if (ferror(file)) {
        fprintf(stderr, "compare: %s cannot be read\n", name);
        exit(2);
    }
    fclose(file);
    return length;
}

/* A record's number. Ends the program where the word is none. */
static size_t number(const char *word)
{
    char *end;
    unsigned long n = strtoul(word, &end, 10);
    if (end == word || *end != 0) {
        fprintf(stderr, "compare: %s is no number\n", word);
        exit(2);
    }
    return n;
}

static void print_places(const uint32_t *places, uint32_t total)
{
    uint32_t listed = total < PLACES ? total : PLACES;
    for (uint32_t i = 0; i < listed; i++)
        printf(" %u", (unsigned)places[i]);
    printf(listed < total ? " ...\n" : "\n");
}

int main(int argc, char **argv)
{
    static uint8_t golden[ROOM], radio[ROOM];
    uint32_t places[PLACES] = {0};
    if (argc != 4) {
        fprintf(stderr, "usage: compare GOLDEN RECORD RADIO\n");
        return 2;
    }
    size_t golden_length = contents(argv[1], golden);
    size_t record = number(argv[2]);
    size_t radio_length = contents(argv[3], radio);

    uint64_t answer = morlewen_compare(golden, golden_length, record, radio, radio_length, places, PLACES);
    if (morlewen_number(answer) != MORLEWEN_DONE) {
        printf("refused %u %u %u\n", morlewen_number(answer), morlewen_reading(answer), (unsigned)morlewen_value(answer));
        return 1;
    }
    if (morlewen_value(answer) == 0) {
        printf("same\n");
        return 0;
    }
    printf("different in %u:", (unsigned)morlewen_value(answer));
    print_places(places, morlewen_value(answer));
    return 1;
}

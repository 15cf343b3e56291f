/* judge PLAN CANDIDATE [time TERM [LENGTH]]: judges two files through the static library.
 * Prints the verdict as the program plan_judge does, and behind a refusal that has a faulty part a line with it.
 * With `time`, for a plan that is accepted, prints only the time of a term number; LENGTH bytes of the room are taken
 * for the timetable, or without it as many as the verdict says. A file that cannot be opened counts as empty. */
#include "plan_judge.h"

#include <stdio.h>
#include <stdlib.h>
#include <string.h>

/* One byte more than a text may have, so that a longer file is still seen to be too long. */
#define MOST 60001

/* The refusal whose place is in the candidate. */
#define CANDIDATE 7

/* The refusal that has a list of atoms. */
#define CYCLE 10

static uint8_t text[MOST];
static uint8_t cand[MOST];
static size_t text_length;
static size_t cand_length;
static uint8_t room[PLAN_ROOM_BYTES];
static uint32_t cycle[PLAN_CYCLE_PLACES];

/* The bytes of a file, as many as fit; gives their number. */
static size_t bytes_of(const char *path, uint8_t *bytes) {
    FILE *file = fopen(path, "rb");
    if (file == NULL)
        return 0;
    size_t n = fread(bytes, 1, MOST, file);
    fclose(file);
    return n;
}

/* The 32-bit number at a place of the timetable. */
static uint32_t word(size_t at) {
    return room[at] | (uint32_t)room[at + 1] << 8 | (uint32_t)room[at + 2] << 16 | (uint32_t)room[at + 3] << 24;
}

/* The counts of an accepted timetable, then each name with its time. */
static void print_accepted(size_t length) {
    uint32_t names = word(0);
    printf("accepted %u %u\n", (unsigned)names, (unsigned)word(4));
    for (uint32_t i = 0; i < names; i++) {
        uint32_t term = word(16 + 8 * (size_t)i);
        uint64_t time = plan_time(room, length, term);
        printf("%u %u\n", (unsigned)term, (unsigned)PLAN_BELOW(time));
    }
}

/* The list of a cycle's atoms. */
static void print_cycle(uint32_t count) {
    for (uint32_t i = 0; i < count; i++)
        printf(i == 0 ? "%u" : " %u", (unsigned)cycle[i]);
    printf("\n");
}

/* One byte of a part: as it is from space to tilde, but as \xNN a backslash and any other. */
static void print_byte(uint8_t byte) {
    int plain = byte >= ' ' && byte <= '~' && byte != '\\';
    printf(plain ? "%c" : "\\x%02x", byte);
}

/* The faulty part of the text or the candidate, if there is one. */
static void print_shown(uint32_t number, uint32_t place) {
    uint64_t part = plan_shown(text, text_length, cand, cand_length, number, place);
    if (part == 0)
        return;
    const uint8_t *start = (number == CANDIDATE ? cand : text) + PLAN_ABOVE(part);
    printf("shown ");
    for (uint32_t i = 0; i < PLAN_BELOW(part); i++)
        print_byte(start[i]);
    printf("\n");
}

/* A refusal's number and place, and after 10 the list; then its faulty part. */
static void print_refused(uint32_t number, uint32_t place) {
    printf("refused %u %u\n", (unsigned)number, (unsigned)place);
    if (number == CYCLE)
        print_cycle(place);
    print_shown(number, place);
}

/* The time of a term number in so many bytes of the room. */
static void print_time(size_t length, uint32_t term) {
    uint64_t time = plan_time(room, length, term);
    if (PLAN_ABOVE(time) == 0)
        printf("time %u\n", (unsigned)PLAN_BELOW(time));
    else
        printf("refused %u %u\n", (unsigned)PLAN_ABOVE(time), (unsigned)PLAN_BELOW(time));
}

/* A word of the command line as a number up to the largest given; a word that is none ends the program. */
static uint32_t number_of(const char *digits, uint32_t largest) {
    char *end;
    unsigned long long n = strtoull(digits, &end, 10);
    if (*digits < '0' || *digits > '9' || *end != '\0' || n > largest) {
        fprintf(stderr, "judge: %s: not a number from 0 to %u\n", digits, (unsigned)largest);
        exit(2);
    }
    return (uint32_t)n;
}

int main(int argc, char **argv) {
    if (argc != 3 && (argc < 5 || argc > 6 || strcmp(argv[3], "time") != 0)) {
        fprintf(stderr, "usage: judge PLAN CANDIDATE [time TERM [LENGTH]]\n");
        return 2;
    }
    text_length = bytes_of(argv[1], text);
    cand_length = bytes_of(argv[2], cand);
    uint64_t answer =
        plan_judge(text, text_length, cand, cand_length, room, PLAN_ROOM_BYTES, cycle, PLAN_CYCLE_PLACES);
    uint32_t length = PLAN_BELOW(answer);
    if (PLAN_ABOVE(answer) != 0)
        print_refused(PLAN_ABOVE(answer), PLAN_BELOW(answer));
    else if (argc == 3)
        print_accepted(length);
    else
        print_time(argc == 6 ? number_of(argv[5], PLAN_ROOM_BYTES) : length, number_of(argv[4], UINT32_MAX));
    return 0;
}

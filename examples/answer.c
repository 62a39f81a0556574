/* answer CATALOGUE STORE MIRROR [YEAR-MONTH-DAY] < request > answer
 *
 * One mirror's answer to one request, today: the day in UTC, or the day given. CATALOGUE is a file with the catalogue's text, STORE a file with the
 * packs, which is mapped and not read in, so that nobody may write it or make it shorter meanwhile, MIRROR this
 * mirror's number. A refusal goes to standard error, with its meaning, and its number is the exit status; 64 is
 * bad usage, 66 a file that cannot be used.
 */
#include <errno.h>
#include <fcntl.h>
#include <inttypes.h>
#include <stdio.h>
#include <stdlib.h>
#include <string.h>
#include <sys/mman.h>
#include <sys/stat.h>
#include <time.h>
#include <unistd.h>

#include "gozimpe.h"

enum { BAD_USAGE = 64, NO_INPUT = 66, NO_OUTPUT = 74 };

/* No request is longer than 1,024 bytes. No catalogue is longer than 499, but a text in form, with a length for each of 99,999 packs,
 * can have 1,500,075, and is then out of bounds: what is cut off here is refused anyway, and by the same number. */
enum { MOST_REQUEST = 4096, MOST_CATALOGUE = 1 << 21 };

static const char *meaning(int64_t number) {
    switch (number) {
    case GOZIMPE_TEXT: return "the catalogue is not in its text form";
    case GOZIMPE_BOUNDS: return "the catalogue is out of bounds";
    case GOZIMPE_ONE_PACK: return "the catalogue has a single pack";
    case GOZIMPE_ODD_PIECE: return "the catalogue adds words, and its pieces are odd";
    case GOZIMPE_UNREAL_DAY: return "the day is no real day";
    case GOZIMPE_SEASON: return "the day is outside the catalogue's season";
    case GOZIMPE_MIRROR: return "there is no such mirror in the catalogue";
    case GOZIMPE_REQUEST: return "this mirror does not admit the request";
    case GOZIMPE_STORE_LENGTH: return "the store's length is not the catalogue's";
    case GOZIMPE_ROOM: return "the answer buffer is too short";
    default: return "unknown";
    }
}

/* Today's year, month and day in UTC, or those of `text`, three numbers with hyphens between; 0 if it is not that. Whether there is
 * such a day is for the library to say. */
static int date(const char *text, uint32_t day[3]) {
    if (text == NULL) {
        time_t now = time(NULL);
        struct tm utc;
        if (now == (time_t)-1 || gmtime_r(&now, &utc) == NULL) return 0;
        day[0] = (uint32_t)(utc.tm_year + 1900);
        day[1] = (uint32_t)(utc.tm_mon + 1);
        day[2] = (uint32_t)utc.tm_mday;
        return 1;
    }
    for (int i = 0; i < 3; i++) {
        char *end = NULL;
        if (*text < '0' || *text > '9') return 0;
        unsigned long long number = strtoull(text, &end, 10);
        if (number > UINT32_MAX || *end != (i < 2 ? '-' : '\0')) return 0;
        day[i] = (uint32_t)number;
        text = end + 1;
    }
    return 1;
}

static int refused(int64_t result) {
    fprintf(stderr, "answer: refused %" PRId64 ": %s\n", -result, meaning(-result));
    return (int)-result;
}

static void stop(const char *what) {
    fprintf(stderr, "answer: %s: %s\n", what, strerror(errno));
    exit(NO_INPUT);
}

/* All that is left to read, up to `most` bytes. */
static size_t read_all(FILE *file, uint8_t *buffer, size_t most, const char *what) {
    size_t got = fread(buffer, 1, most, file);
    if (ferror(file)) stop(what);
    return got;
}

static const uint8_t *map(const char *path, size_t *length) {
    int fd = open(path, O_RDONLY);
    struct stat st;
    if (fd < 0 || fstat(fd, &st) != 0) stop(path);
    *length = (size_t)st.st_size;
    if (*length == 0) {
        close(fd);
        return NULL;
    }
    void *at = mmap(NULL, *length, PROT_READ, MAP_PRIVATE, fd, 0);
    if (at == MAP_FAILED) stop(path);
    close(fd);
    return at;
}

int main(int argc, char **argv) {
    static uint8_t catalogue[MOST_CATALOGUE], request[MOST_REQUEST];
    char *end = NULL;
    uint32_t day[3];
    if (argc < 4 || argc > 5 || argv[3][0] < '0' || argv[3][0] > '9') {
        fprintf(stderr, "usage: %s CATALOGUE STORE MIRROR [YEAR-MONTH-DAY] < request > answer\n", argc > 0 ? argv[0] : "answer");
        return BAD_USAGE;
    }
    errno = 0;
    uint64_t mirror = strtoull(argv[3], &end, 10);
    if (*end != '\0' || errno != 0) {
        fprintf(stderr, "answer: %s is not a mirror's number\n", argv[3]);
        return BAD_USAGE;
    }
    if (!date(argc == 5 ? argv[4] : NULL, day)) {
        fprintf(stderr, "answer: no date: YEAR-MONTH-DAY is asked for, as 2026-11-16\n");
        return BAD_USAGE;
    }
    FILE *file = fopen(argv[1], "rb");
    if (file == NULL) stop(argv[1]);
    size_t catalogue_len = read_all(file, catalogue, sizeof catalogue, argv[1]);
    fclose(file);
    size_t store_len;
    const uint8_t *store = map(argv[2], &store_len);
    size_t request_len = read_all(stdin, request, sizeof request, "standard input");

    int64_t room = gozimpe_longest_answer(catalogue, catalogue_len);
    if (room < 0) return refused(room);
    uint8_t *answer = malloc((size_t)room);
    if (answer == NULL) stop("answer buffer");
    int64_t result = gozimpe_answer(catalogue, catalogue_len, day[0], day[1], day[2], mirror, store, store_len,
                                    request, request_len, answer, (size_t)room);
    if (result < 0) return refused(result);
    if (fwrite(answer, 1, (size_t)result, stdout) != (size_t)result || fflush(stdout) != 0) {
        fprintf(stderr, "answer: standard output: %s\n", strerror(errno));
        return NO_OUTPUT;
    }
    return 0;
}

/* correct CATALOGUE STORE MIRROR FOLDER PACK PIECE BYTE VALUE
 *
 * Sets one byte of a mirror's store and brings the answers that it has saved up to date. CATALOGUE is a file with the catalogue's
 * text, STORE the file with the packs, MIRROR this mirror's number. FOLDER has all answers that were saved from this store, each
 * with its request: NAME.answer and NAME.request, where a name always stands for the same request. Meanwhile nobody else may
 * answer from the store or write to the folder; both are locked, as by flock(1).
 *
 * It may be interrupted anywhere. The new answers are written to a folder in FOLDER first, whose name says which edit they are
 * for; then the byte is set; then they take the places of the old ones, and their folder is removed. Each step is on the disk
 * before the next begins. So if such a folder is left, the store tells how far that run came: if the byte has the new value, the
 * new answers were whole, and those that are left are put in place; if it has not, they are thrown away. For that, no folder is
 * made where the byte has the value from the start; there is nothing to do then. Whatever the next run is asked for, it sees to
 * the folder first. Do not serve from FOLDER before that.
 *
 * A refusal goes to standard error, with its meaning, and its number is the exit status; 64 is bad usage, 65 a folder without a
 * saved answer, for the library sets a byte only together with one, 66 a file that cannot be used, 74 one that cannot be written,
 * 75 a folder or a store that is locked. After a refusal store and answers are as they were.
 */
#include <dirent.h>
#include <errno.h>
#include <fcntl.h>
#include <inttypes.h>
#include <stdarg.h>
#include <stdio.h>
#include <stdlib.h>
#include <string.h>
#include <sys/file.h>
#include <sys/mman.h>
#include <sys/stat.h>
#include <unistd.h>

#include "gozimpe.h"

enum { BAD_USAGE = 64, NONE_SAVED = 65, NO_INPUT = 66, NO_OUTPUT = 74, AT_WORK = 75 };

/* No request is longer than 1,024 bytes. What is cut off of a longer catalogue is refused anyway, and by the same number. */
enum { MOST_REQUEST = 4096, MOST_CATALOGUE = 1 << 21, MOST_PATH = 1024, MOST_NAME = 80 };

struct edit {
    uint64_t pack, piece, byte;
    uint8_t value;
};

static uint8_t catalogue[MOST_CATALOGUE], request[MOST_REQUEST], *answer, *store;
static size_t catalogue_len, request_len, answer_len, store_len, room;
static uint64_t mirror;
static int store_file;
static struct dirent **saved; /* the names of the saved answers */
static int count;

/* ---- how it ends */

static void stop(int status, const char *what) {
    fprintf(stderr, "correct: %s: %s\n", what, strerror(errno));
    exit(status);
}

static const char *meaning(int64_t number) {
    switch (number) {
    case GOZIMPE_TEXT: return "the catalogue is not in its text form";
    case GOZIMPE_BOUNDS: return "the catalogue is out of bounds";
    case GOZIMPE_ONE_PACK: return "the catalogue has a single pack";
    case GOZIMPE_ODD_PIECE: return "the catalogue adds words, and its pieces are odd";
    case GOZIMPE_MIRROR: return "there is no such mirror in the catalogue";
    case GOZIMPE_REQUEST: return "this mirror does not admit the request";
    case GOZIMPE_STORE_LENGTH: return "the store's length is not the catalogue's";
    case GOZIMPE_EDIT: return "there is no such byte in the catalogue's packs";
    case GOZIMPE_ANSWER_LENGTH: return "the saved answer has not the length of an answer to its request";
    default: return "unknown";
    }
}

/* 7 and 10 are about the answer at hand and its request, all other numbers about the call's other inputs */
static void admit(int64_t result, const char *name) {
    if (result >= 0) return;
    int own = -result == GOZIMPE_REQUEST || -result == GOZIMPE_ANSWER_LENGTH;
    fprintf(stderr, "correct: %s%srefused %" PRId64 ": %s\n", own ? name : "", own ? ": " : "", -result, meaning(-result));
    exit((int)-result);
}

/* ---- files */

static const char *path(const char *form, ...) {
    static char out[MOST_PATH];
    va_list parts;
    va_start(parts, form);
    int length = vsnprintf(out, sizeof out, form, parts);
    va_end(parts);
    errno = ENAMETOOLONG;
    if (length < 0 || length >= MOST_PATH) stop(NO_INPUT, form);
    return out;
}

/* The bytes of a file, `most` of them if there are more. */
static size_t read_file(const char *name, uint8_t *to, size_t most) {
    FILE *file = fopen(name, "rb");
    if (file == NULL) stop(NO_INPUT, name);
    size_t got = fread(to, 1, most, file);
    if (ferror(file)) stop(NO_INPUT, name);
    fclose(file);
    return got;
}

static void sync_folder(const char *name) {
    int folder = open(name, O_RDONLY | O_DIRECTORY);
    if (folder < 0 || fsync(folder) != 0 || close(folder) != 0) stop(NO_OUTPUT, name);
}

/* Shared: what is set in the mapping is set in the file. */
static void map_store(const char *name) {
    struct stat st;
    store_file = open(name, O_RDWR);
    if (store_file < 0 || fstat(store_file, &st) != 0) stop(NO_INPUT, name);
    store_len = (size_t)st.st_size;
    if (store_len == 0) return;
    void *at = mmap(NULL, store_len, PROT_READ | PROT_WRITE, MAP_SHARED, store_file, 0);
    if (at == MAP_FAILED) stop(NO_INPUT, name);
    store = at;
}

static int is_answer(const struct dirent *entry) {
    size_t length = strlen(entry->d_name);
    return length >= 7 && strcmp(entry->d_name + length - 7, ".answer") == 0;
}

/* A saved answer with its request. A byte more than the longest answer is read, so that a longer one is refused. */
static void load(const char *name) {
    request_len = read_file(path("%.*s.request", (int)strlen(name) - 7, name), request, MOST_REQUEST);
    answer_len = read_file(name, answer, room + 1);
}

static void write_answer(const char *name) {
    int file = open(name, O_WRONLY | O_CREAT | O_TRUNC, 0666);
    if (file < 0) stop(NO_OUTPUT, name);
    for (size_t at = 0; at < answer_len;) {
        ssize_t put = write(file, answer + at, answer_len - at);
        if (put < 0 && errno != EINTR) stop(NO_OUTPUT, name);
        if (put > 0) at += (size_t)put;
    }
    if (fsync(file) != 0 || close(file) != 0) stop(NO_OUTPUT, name);
}

/* ---- the folder of an edit */

static void name_folder(char name[MOST_NAME], struct edit e) {
    snprintf(name, MOST_NAME, "edit-%" PRIu64 "-%" PRIu64 "-%" PRIu64 "-%d", e.pack, e.piece, e.byte, e.value);
}

/* Whether a name is that of an edit's folder, and of which. */
static int edit_of(const char *name, struct edit *e) {
    char again[MOST_NAME];
    if (sscanf(name, "edit-%" SCNu64 "-%" SCNu64 "-%" SCNu64 "-%" SCNu8, &e->pack, &e->piece, &e->byte, &e->value) != 4) return 0;
    name_folder(again, *e);
    return strcmp(name, again) == 0;
}

static int is_edit(const struct dirent *entry) {
    struct edit e;
    return edit_of(entry->d_name, &e);
}

/* Removes the folder and all that is left in it. */
static void drop(const char *folder) {
    struct dirent **left;
    int files = scandir(folder, &left, NULL, NULL);
    if (files < 0) stop(NO_INPUT, folder);
    for (int i = 0; i < files; i++) {
        const char *name = left[i]->d_name;
        if (strcmp(name, ".") != 0 && strcmp(name, "..") != 0 && unlink(path("%s/%s", folder, name)) != 0) stop(NO_OUTPUT, name);
    }
    if (rmdir(folder) != 0) stop(NO_OUTPUT, folder);
    sync_folder(".");
}

/* The byte is set: first it has to be on the disk, also where an earlier run was stopped before that; then the new answers are
 * put in place. One that is no longer saved is not brought back. */
static void settle(const char *folder) {
    struct dirent **new;
    if (fsync(store_file) != 0) stop(NO_OUTPUT, "store");
    int answers = scandir(folder, &new, is_answer, alphasort);
    if (answers < 0) stop(NO_INPUT, folder);
    for (int i = 0; i < answers; i++) {
        const char *name = new[i]->d_name;
        if (access(name, F_OK) == 0 && rename(path("%s/%s", folder, name), name) != 0) stop(NO_OUTPUT, name);
    }
    sync_folder(".");
    drop(folder);
}

/* ---- the correction */

/* Sets the byte in the store or in a copy of it, together with a saved answer, of which nothing is written back. */
static void set_byte(uint8_t *packs, struct edit e) {
    const char *name = saved[0]->d_name;
    load(name);
    admit(gozimpe_correct(catalogue, catalogue_len, mirror, packs, store_len, request, request_len, answer, answer_len,
                          e.pack, e.piece, e.byte, e.value), name);
}

/* Whether the byte has the value: then setting it in a copy changes nothing. */
static int has_value(struct edit e) {
    uint8_t *copy = malloc(store_len + 1);
    if (copy == NULL) stop(NO_INPUT, "copy of the store");
    if (store_len > 0) memcpy(copy, store, store_len);
    set_byte(copy, e);
    int has = memcmp(copy, store, store_len) == 0;
    free(copy);
    return has;
}

/* All saved answers, corrected by the store as it is; written to the folder, or only tried. */
static void correct_answers(struct edit e, const char *folder) {
    for (int i = 0; i < count; i++) {
        const char *name = saved[i]->d_name;
        load(name);
        admit(gozimpe_correct_answer(catalogue, catalogue_len, mirror, store, store_len, request, request_len, answer, answer_len,
                                     e.pack, e.piece, e.byte, e.value), name);
        if (folder != NULL) write_answer(path("%s/%s", folder, name));
    }
}

/* What an interrupted run has left; where no answer is saved any more, there is none to put in place. */
static void finish_earlier(void) {
    struct dirent **left;
    struct edit e;
    int folders = scandir(".", &left, is_edit, alphasort);
    if (folders < 0) stop(NO_INPUT, "folder");
    for (int i = 0; i < folders; i++) {
        const char *folder = left[i]->d_name;
        int done = edit_of(folder, &e) && count > 0 && has_value(e);
        printf("correct: %s was interrupted, and is %s\n", folder, done ? "finished" : "dropped");
        if (done) settle(folder);
        else drop(folder);
    }
}

static void correct(struct edit e) {
    char folder[MOST_NAME];
    name_folder(folder, e);
    correct_answers(e, NULL);
    if (has_value(e)) {
        printf("correct: the byte is %d already\n", e.value);
        return;
    }
    if (mkdir(folder, 0777) != 0) stop(NO_OUTPUT, folder);
    correct_answers(e, folder);
    sync_folder(folder);
    sync_folder(".");
    set_byte(store, e);
    if (msync(store, store_len, MS_SYNC) != 0) stop(NO_OUTPUT, "store");
    settle(folder);
    printf("correct: the byte is %d now, and %d saved answer%s up to date\n", e.value, count, count == 1 ? " is" : "s are");
}

static uint64_t number(const char *text, uint64_t most) {
    char *end = NULL;
    errno = 0;
    uint64_t got = strtoull(text, &end, 10);
    if (*text >= '0' && *text <= '9' && *end == '\0' && errno == 0 && got <= most) return got;
    fprintf(stderr, "correct: %s is not a number, or too large\n", text);
    exit(BAD_USAGE);
}

int main(int argc, char **argv) {
    if (argc != 9) {
        fprintf(stderr, "usage: %s CATALOGUE STORE MIRROR FOLDER PACK PIECE BYTE VALUE\n", argc > 0 ? argv[0] : "correct");
        return BAD_USAGE;
    }
    mirror = number(argv[3], UINT64_MAX);
    struct edit e = {number(argv[5], UINT64_MAX), number(argv[6], UINT64_MAX), number(argv[7], UINT64_MAX),
                     (uint8_t)number(argv[8], 255)};
    catalogue_len = read_file(argv[1], catalogue, sizeof catalogue);
    map_store(argv[2]);
    int64_t longest = gozimpe_longest_answer(catalogue, catalogue_len);
    admit(longest, argv[1]);
    room = (size_t)longest;
    answer = malloc(room + 1);
    if (answer == NULL) stop(NO_INPUT, "answer buffer");
    int folder = open(argv[4], O_RDONLY | O_DIRECTORY);
    if (folder < 0 || chdir(argv[4]) != 0) stop(NO_INPUT, argv[4]);
    if (flock(folder, LOCK_EX | LOCK_NB) != 0) stop(errno == EWOULDBLOCK ? AT_WORK : NO_INPUT, argv[4]);
    if (flock(store_file, LOCK_EX | LOCK_NB) != 0) stop(errno == EWOULDBLOCK ? AT_WORK : NO_INPUT, argv[2]);
    count = scandir(".", &saved, is_answer, alphasort);
    if (count < 0) stop(NO_INPUT, argv[4]);
    finish_earlier();
    if (count == 0) {
        fprintf(stderr, "correct: %s has no saved answer, and a byte is set only together with one\n", argv[4]);
        return NONE_SAVED;
    }
    correct(e);
    return 0;
}

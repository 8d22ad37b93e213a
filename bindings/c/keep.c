/*
 * A take-back whose result is kept: keep DEPOT SALE... It does what bindings/rust/examples/keep.rs does, with the same files;
 * docs/FORMAT.md, "Keeping a day", has them and the order of the steps. Wherever this program or the machine stops, the highest day is
 * the old or the new one, whole, and no earlier one is touched. One process at a time writes to a depot's folder.
 */
#define _XOPEN_SOURCE 700
#include <dirent.h>
#include <errno.h>
#include <fcntl.h>
#include <inttypes.h>
#include <stdio.h>
#include <stdlib.h>
#include <string.h>
#include <sys/stat.h>
#include <unistd.h>

#include "journal.h"

enum { PATH = 4096 };

/* What a day's folder holds. */
struct day {
    uint8_t journal[JOURNAL_MAX_BYTES];
    int32_t table[JOURNAL_MAX_ITEMS + 1];
    uint16_t taken[JOURNAL_MAX_TRANSACTION];
    size_t journal_length, items, taken_length;
};

/* Ends the program, with what the system says of a path, or with other words. */
static void fail(const char *path) {
    fprintf(stderr, "keep: %s: %s\n", path, strerror(errno));
    exit(1);
}

static void refuse(const char *what, const char *why) {
    fprintf(stderr, "keep: %s: %s\n", what, why);
    exit(1);
}

/* The path of a name in a folder. */
static void join(char path[PATH], const char *folder, const char *name) {
    if (snprintf(path, PATH, "%s/%s", folder, name) >= PATH) refuse(folder, "the path is too long");
}

/* The number behind "day-" or "part-" if the name is such a one, without leading zeros; 0 otherwise. */
static unsigned long number_in(const char *name, const char *front) {
    const size_t length = strlen(front);
    const unsigned long number = strncmp(name, front, length) == 0 ? strtoul(name + length, NULL, 10) : 0;
    char again[32];
    snprintf(again, sizeof again, "%s%lu", front, number);
    return strcmp(name, again) == 0 ? number : 0;
}

/* The highest day. A folder that is being written has another name. */
static unsigned long highest(const char *depot) {
    unsigned long number = 0;
    struct dirent *entry;
    DIR *folder = opendir(depot);
    if (folder == NULL) fail(depot);
    while ((entry = readdir(folder)) != NULL)
        if (number_in(entry->d_name, "day-") > number) number = number_in(entry->d_name, "day-");
    closedir(folder);
    if (number == 0) refuse(depot, "no day-1");
    return number;
}

/* The bytes of a file, at most `most` of them. */
static size_t read_file(const char *folder, const char *name, uint8_t *bytes, size_t most) {
    char path[PATH];
    size_t length = 0;
    ssize_t got;
    int file;
    join(path, folder, name);
    file = open(path, O_RDONLY);
    if (file < 0) fail(path);
    while ((got = read(file, bytes + length, most - length)) > 0) length += (size_t)got;
    if (got < 0) fail(path);
    close(file);
    return length;
}

/* Numbers are little-endian. What is longer than a table or a list can be is read as one entry too many at most, and so refused. */
static void load(const char *folder, struct day *day) {
    uint8_t bytes[4 * (JOURNAL_MAX_ITEMS + 1)];
    char path[PATH];
    size_t length, i;
    day->journal_length = read_file(folder, "journal.bin", day->journal, sizeof day->journal);
    length = read_file(folder, "table.bin", bytes, sizeof bytes);
    if (length % 4 != 0) refuse(folder, "table.bin ends in part of a number");
    day->items = length / 4;
    for (i = 0; i < day->items; i++) day->table[i] = journal_i32(bytes + 4 * i);
    join(path, folder, "taken.bin");
    day->taken_length = 0;
    if (access(path, F_OK) != 0) return;
    length = read_file(folder, "taken.bin", bytes, sizeof day->taken + 2);
    if (length % 2 != 0 || length > sizeof day->taken) refuse(folder, "taken.bin is no list of sales");
    day->taken_length = length / 2;
    for (i = 0; i < day->taken_length; i++) day->taken[i] = (uint16_t)(bytes[2 * i] | bytes[2 * i + 1] << 8);
}

/* The list without the sales taken back before; how many are left. */
static size_t strike(const struct day *day, uint16_t *sales, size_t length) {
    size_t i, j, left = 0;
    for (i = 0; i < length; i++) {
        for (j = 0; j < day->taken_length && day->taken[j] != sales[i]; j++) continue;
        if (j == day->taken_length) sales[left++] = sales[i];
    }
    return left;
}

/* Ends the program unless the call was accepted. */
static void accept(uint32_t number, uint64_t place) {
    if (number == 0) return;
    fprintf(stderr, "keep: %s", journal_refusal_word(number));
    if (*journal_place_word(number) != 0) fprintf(stderr, ", %s %" PRIu64, journal_place_word(number), place);
    fprintf(stderr, "\n");
    exit(1);
}

/* The day after a take-back of these sales, those taken back before struck from the list. */
static void take_back(struct day *day, uint16_t *sales, size_t length, uint32_t *surviving, uint32_t *undone) {
    static uint8_t copy[JOURNAL_MAX_BYTES], status[JOURNAL_STATUS_BYTES];
    uint32_t aborted, number;
    uint64_t answer = 0;
    size_t sale;
    length = strike(day, sales, length);
    number = journal_undo(day->journal, day->journal_length, day->table, day->items, sales, length, status, sizeof status, copy,
                          sizeof copy, surviving, undone, &aborted, &answer);
    accept(number, answer);
    day->journal_length = (size_t)answer;
    memcpy(day->journal, copy, day->journal_length);
    number = journal_check(day->journal, day->journal_length, day->table, day->items, &answer);
    accept(number, answer);
    for (sale = 0; sale < sizeof status; sale++) {
        if (status[sale] != JOURNAL_STATUS_UNDONE) continue;
        if (day->taken_length == JOURNAL_MAX_TRANSACTION) refuse("taken.bin", "more sales than there can be");
        day->taken[day->taken_length++] = (uint16_t)sale;
    }
}

/* A new file, on the disk when this returns. */
static void write_file(const char *folder, const char *name, const uint8_t *bytes, size_t length) {
    char path[PATH];
    size_t done = 0;
    int file;
    join(path, folder, name);
    file = open(path, O_WRONLY | O_CREAT | O_EXCL, 0666);
    if (file < 0) fail(path);
    while (done < length) {
        const ssize_t wrote = write(file, bytes + done, length - done);
        if (wrote < 0) fail(path);
        done += (size_t)wrote;
    }
    if (fsync(file) != 0 || close(file) != 0) fail(path);
}

/* The names in a folder, on the disk when this returns. */
static void flush(const char *folder) {
    const int file = open(folder, O_RDONLY);
    if (file < 0 || fsync(file) != 0 || close(file) != 0) fail(folder);
}

/* Removes a folder that is no day. */
static void remove_part(const char *part) {
    static const char *const names[] = {"journal.bin", "table.bin", "taken.bin"};
    char path[PATH];
    size_t i;
    for (i = 0; i < sizeof names / sizeof *names; i++) {
        join(path, part, names[i]);
        if (unlink(path) != 0 && errno != ENOENT) fail(path);
    }
    if (rmdir(part) != 0) fail(part);
}

/* A new folder that is no day. Those that a stop has left are removed first. Each is renamed before its files go: a program that is
   still at work on it fails then, and keeps no day with files missing. */
static void make_part(char part[PATH], const char *depot) {
    char name[32], left[PATH];
    struct dirent *entry;
    DIR *folder;
    snprintf(name, sizeof name, "part-%ld", (long)getpid());
    join(part, depot, name);
    if (access(part, F_OK) == 0) remove_part(part);
    folder = opendir(depot);
    if (folder == NULL) fail(depot);
    while ((entry = readdir(folder)) != NULL) {
        if (number_in(entry->d_name, "part-") == 0) continue;
        join(left, depot, entry->d_name);
        if (rename(left, part) != 0) fail(left);
        remove_part(part);
    }
    closedir(folder);
    if (mkdir(part, 0777) != 0) fail(part);
}

/* Keeps a day under this number, which no day has yet. */
static void store(const char *depot, unsigned long number, const struct day *day) {
    uint8_t table[sizeof day->table], taken[sizeof day->taken];
    char name[32], part[PATH], folder[PATH];
    size_t i;
    for (i = 0; i < 4 * day->items; i++) table[i] = (uint8_t)((uint32_t)day->table[i / 4] >> 8 * (i % 4));
    for (i = 0; i < 2 * day->taken_length; i++) taken[i] = (uint8_t)(day->taken[i / 2] >> 8 * (i % 2));
    snprintf(name, sizeof name, "day-%lu", number);
    join(folder, depot, name);

    make_part(part, depot);
    write_file(part, "journal.bin", day->journal, day->journal_length);
    write_file(part, "table.bin", table, 4 * day->items);
    write_file(part, "taken.bin", taken, 2 * day->taken_length);
    flush(part);
    /* Where another program was faster, the name is a folder that is not empty, and rename fails. */
    if (rename(part, folder) != 0) fail(folder);
    flush(depot);
}

int main(int count, char **words) {
    static struct day day;
    uint16_t *sales = (uint16_t *)malloc((size_t)count * sizeof *sales);
    char name[32], folder[PATH];
    unsigned long number;
    uint32_t surviving, undone;
    int i;
    if (sales == NULL) refuse("sales", "no memory");
    for (i = 2; i < count; i++) {
        char *end;
        const unsigned long sale = strtoul(words[i], &end, 10);
        if (*words[i] < '0' || *words[i] > '9' || *end != 0 || sale > UINT16_MAX) break;
        sales[i - 2] = (uint16_t)sale;
    }
    if (count < 2 || i < count) {
        fprintf(stderr, "usage: keep DEPOT SALE...\n");
        return 2;
    }
    number = highest(words[1]);
    if (number + 1 == 0) refuse(words[1], "no number is left");
    snprintf(name, sizeof name, "day-%lu", number);
    join(folder, words[1], name);
    load(folder, &day);
    take_back(&day, sales, (size_t)(count - 2), &surviving, &undone);
    store(words[1], number + 1, &day);
    printf("day-%lu: %" PRIu32 " taken back, %" PRIu32 " kept\n", number + 1, undone, surviving);
    free(sales);
    return 0;
}

/* Does with plain calls what an edit does that moves the files f0, f1, .. of t/old to t/new and puts a word in front of each.

       flushes files N      writes and flushes each new file, and takes the old ones away
       flushes journal N    flushes beside that what wsedit flushes: a record of the edit and the byte that makes it count before
                            anything is changed, the folders in which names went or came, and last the byte that settles it

   Any call that fails ends it with status 1. */

#include <fcntl.h>
#include <stdio.h>
#include <stdlib.h>
#include <string.h>
#include <sys/stat.h>
#include <unistd.h>

enum { MOST = 1 << 16, NAME = 64 };
static const char WORD[] = "new ";

static void must(int fine) {
    if (!fine) {
        perror("flushes");
        exit(1);
    }
}

static void flush_and_close(int file) {
    must(fsync(file) == 0);
    must(close(file) == 0);
}

static void flush_folder(const char *name) {
    int folder = open(name, O_RDONLY | O_DIRECTORY);
    must(folder >= 0);
    flush_and_close(folder);
}

/* Writes the bytes from the place on, and flushes them. */
static void write_at(const char *name, off_t at, const char *bytes, size_t count) {
    int file = open(name, O_WRONLY | O_CREAT, 0666);
    must(file >= 0);
    must(pwrite(file, bytes, count, at) == (ssize_t)count);
    flush_and_close(file);
}

/* Reads the file behind the word, and answers how many bytes both have. */
static size_t edited(const char *name, char *into) {
    size_t word = strlen(WORD);
    int file = open(name, O_RDONLY);
    must(file >= 0);
    memcpy(into, WORD, word);
    ssize_t count = read(file, into + word, MOST - word);
    must(count >= 0);
    must(close(file) == 0);
    return word + (size_t)count;
}

/* Makes the record: the old and the new content of each file. */
static char *record_of(int files, size_t *count) {
    char name[NAME], *record = malloc((size_t)files * 2 * MOST);
    must(record != NULL);
    *count = 0;
    for (int i = 0; i < files; i++) {
        snprintf(name, NAME, "t/old/f%d", i);
        size_t length = edited(name, record + *count);
        memcpy(record + *count + length, record + *count + strlen(WORD), length - strlen(WORD));
        *count += 2 * length - strlen(WORD);
    }
    return record;
}

/* Takes the old files away, and keeps what the new ones will have. */
static void take_away(int files, char **contents, size_t *lengths) {
    char name[NAME];
    for (int i = 0; i < files; i++) {
        snprintf(name, NAME, "t/old/f%d", i);
        must((contents[i] = malloc(MOST)) != NULL);
        lengths[i] = edited(name, contents[i]);
        must(unlink(name) == 0);
    }
    must(rmdir("t/old") == 0);
}

static void write_new(int files, char **contents, size_t *lengths) {
    char name[NAME];
    must(mkdir("t/new", 0777) == 0);
    for (int i = 0; i < files; i++) {
        snprintf(name, NAME, "t/new/f%d", i);
        write_at(name, 0, contents[i], lengths[i]);
    }
}

int main(int count, char **words) {
    if (count != 3 || (strcmp(words[1], "files") && strcmp(words[1], "journal"))) {
        fputs("usage: flushes files|journal N\n", stderr);
        return 2;
    }
    int files = atoi(words[2]), has_journal = !strcmp(words[1], "journal");
    char **contents = malloc((size_t)files * sizeof *contents);
    size_t *lengths = malloc((size_t)files * sizeof *lengths), length = 0;
    must(contents != NULL && lengths != NULL);
    if (has_journal) {
        char *record = record_of(files, &length);
        write_at("s/log", 1, record, length);
        write_at("s/log", 0, "\xa5", 1);
    }
    take_away(files, contents, lengths);
    if (has_journal) flush_folder("t");
    write_new(files, contents, lengths);
    if (has_journal) {
        flush_folder("t");
        flush_folder("t/new");
        write_at("s/log", (off_t)length + 1, "\x5a", 1);
    }
    return 0;
}

/* Makes one call fail of the program before which it is loaded: with FAILS=growth:3 its third call of malloc or realloc answers that
 * memory is out, and with growths:3 the third and each after it; with read:3 or write:3 its third call of that name fails; with
 * interrupt:3 its third read is interrupted, and with short:3 its third write takes one byte. It says so on standard error, so that a
 * run in which none failed can be told from one that goes on without. What it says itself counts as no write.
 *
 * With growth:each, and so on, one run shows what comes of each such call. At the call the program is copied; the call fails to the
 * copy, which goes on to its end; and the program waits for that, and goes on as if there had been no copy. The file ENDS gets for each
 * copy the number of the call, how the copy ended, and what was written until then. A copy has but one thread, so none is made where
 * the program has several; and none once it has looked at a clock, since it goes by time then, which copies take up. Standard output
 * and error have to be files that can be read too.
 *
 * With text:each the program is copied before it begins, once for each of the texts in the file TEXTS, and the copy finds that text in
 * the file TEXT. */

#define _GNU_SOURCE
#include <dlfcn.h>
#include <errno.h>
#include <fcntl.h>
#include <stdatomic.h>
#include <stdio.h>
#include <stdlib.h>
#include <string.h>
#include <sys/sendfile.h>
#include <sys/stat.h>
#include <sys/wait.h>
#include <time.h>
#include <unistd.h>

/* How many open files are put back to where they stood, and how many seconds a copy may take. */
#define FILES 16
#define SECONDS 120

/* How long a text may be. */
#define LONGEST 65536

/* What stat says of the links to the folder of a program's threads: two, and one for each thread. */
#define LINKS_OF_ONE 3

static const char *kind = "";
static const char *ends;
static unsigned long number;
static atomic_ulong calls;

static void *next(const char *name) {
    void *found = dlsym(RTLD_NEXT, name);
    if (found == NULL) abort();
    return found;
}

/* Adds the whole of a file to another. */
static void add(int to, int from) {
    off_t place = 0, size = lseek(from, 0, SEEK_END);
    if (size < 0) abort();
    while (place < size)
        if (sendfile(to, from, &place, size - place) <= 0) abort();
}

/* Adds to ENDS how a copy ended. */
static void keep(unsigned long call, int status) {
    char line[100];
    int to = open(ends, O_WRONLY | O_CREAT, 0600);
    int ended = WIFEXITED(status) ? WEXITSTATUS(status) : 128 + WTERMSIG(status);
    long long sizes[] = {lseek(1, 0, SEEK_END), lseek(2, 0, SEEK_END)};
    int length = snprintf(line, sizeof line, "%lu %d %lld %lld\n", call, ended, sizes[0], sizes[1]);
    if (to < 0 || lseek(to, 0, SEEK_END) < 0 || write(to, line, length) != length) abort();
    add(to, 1);
    add(to, 2);
    close(to);
}

/* Where the files that are open stand, which a copy moves on; a file that has no places stands at -1. */
static void note_places(off_t *places) {
    for (int file = 0; file < FILES; file++) places[file] = lseek(file, 0, SEEK_CUR);
}

/* Puts all files back, and takes off what a copy wrote. */
static void put_back(const off_t *places) {
    for (int file = 0; file < FILES; file++)
        if (places[file] >= 0 && lseek(file, places[file], SEEK_SET) < 0) abort();
    if (ftruncate(1, places[1]) < 0 || ftruncate(2, places[2]) < 0) abort();
}

/* Copies the program, and waits for the end of the copy. Answers whether this is the copy. */
static int is_copy(unsigned long call) {
    struct stat threads;
    off_t places[FILES];
    int status, error = errno;
    if (ends == NULL || stat("/proc/self/task", &threads) < 0 || threads.st_nlink != LINKS_OF_ONE) return 0;
    note_places(places);
    pid_t copy = fork();
    if (copy == 0) {
        ends = NULL;
        alarm(SECONDS);
    } else if (copy > 0) {
        if (waitpid(copy, &status, 0) != copy) abort();
        keep(call, status);
        put_back(places);
    }
    errno = error;
    return copy == 0;
}

/* Writes each of the texts into the file that the program reads, and copies the program for it. */
static void put_texts(const char *into, const char *from) {
    static char text[LONGEST];
    size_t size;
    FILE *texts = fopen(from, "r");
    if (texts == NULL) abort();
    for (unsigned long call = 1; fscanf(texts, "%zu,", &size) == 1; call++) {
        int file = open(into, O_WRONLY | O_TRUNC);
        if (file < 0 || size > LONGEST || fread(text, 1, size, texts) != size) abort();
        if (write(file, text, size) != (ssize_t)size) abort();
        close(file);
        if (is_copy(call)) return;
    }
    fclose(texts);
}

__attribute__((constructor)) static void begin(void) {
    const char *fails = getenv("FAILS");
    const char *colon = fails ? strchr(fails, ':') : NULL;
    if (colon == NULL) return;
    number = strtoul(colon + 1, NULL, 10);
    kind = fails;
    ends = getenv("ENDS");
    if (strcmp(fails, "text:each") == 0) put_texts(getenv("TEXT"), getenv("TEXTS"));
}

/* Whether this call of this kind is the one that fails. */
static int fails(const char *of, int error) {
    static const char told[] = "one call fails\n";
    size_t length = strlen(of);
    if (strncmp(kind, of, length) != 0) return 0;
    int and_after = strncmp(kind + length, "s:", 2) == 0;
    if (!and_after && kind[length] != ':') return 0;
    unsigned long call = atomic_fetch_add(&calls, 1) + 1;
    if (is_copy(call)) number = call;
    if (number == 0 || (and_after ? call < number : call != number)) return 0;
    if (call > number) {
        errno = error;
        return 1;
    }
    ssize_t (*real)(int, const void *, size_t) = (ssize_t (*)(int, const void *, size_t))next("write");
    if (real(2, told, sizeof told - 1) < 0) abort();
    errno = error;
    return 1;
}

void *malloc(size_t size) {
    static void *(*real)(size_t);
    if (real == NULL) real = (void *(*)(size_t))next("malloc");
    return fails("growth", ENOMEM) ? NULL : real(size);
}

void *realloc(void *old, size_t size) {
    static void *(*real)(void *, size_t);
    if (real == NULL) real = (void *(*)(void *, size_t))next("realloc");
    return fails("growth", ENOMEM) ? NULL : real(old, size);
}

ssize_t read(int from, void *bytes, size_t count) {
    static ssize_t (*real)(int, void *, size_t);
    if (real == NULL) real = (ssize_t (*)(int, void *, size_t))next("read");
    return fails("read", EIO) || fails("interrupt", EINTR) ? -1 : real(from, bytes, count);
}

ssize_t write(int to, const void *bytes, size_t count) {
    static ssize_t (*real)(int, const void *, size_t);
    if (real == NULL) real = (ssize_t (*)(int, const void *, size_t))next("write");
    if (to != 1) return real(to, bytes, count);
    if (fails("write", EIO)) return -1;
    return real(to, bytes, count > 1 && fails("short", 0) ? 1 : count);
}

int clock_gettime(clockid_t clock, struct timespec *time) {
    static int (*real)(clockid_t, struct timespec *);
    if (real == NULL) real = (int (*)(clockid_t, struct timespec *))next("clock_gettime");
    ends = NULL;
    return real(clock, time);
}

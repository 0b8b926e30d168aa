/* Calls of the library as no example makes them. It takes the folder of examples, prints a line for each answer that is not as it should
 * be, and ends with their number, 99 at most. With another word behind the folder it prints how long calls take. */
#define _POSIX_C_SOURCE 200809L

#include "bevelrose.h"

#include <stdio.h>
#include <stdlib.h>
#include <string.h>
#include <time.h>

#define ROOM 32768

typedef struct {
    uint8_t *bytes;
    size_t length;
} text;

static unsigned failures = 0;
static const char *doing = "";

static void expect(int is_good, const char *what) {
    if (is_good)
        return;
    failures += 1;
    printf("%s: %s\n", doing, what);
}

static text text_of(const char *bytes) { return (text){(uint8_t *)(uintptr_t)bytes, strlen(bytes)}; }

static text read_text(const char *folder, const char *name) {
    char path[4096];
    snprintf(path, sizeof path, "%s/%s", folder, name);
    FILE *file = fopen(path, "rb");
    text it = {calloc(1 << 20, 1), 0};
    if (file == NULL || it.bytes == NULL) {
        printf("%s can't be read\n", path);
        exit(100);
    }
    it.length = fread(it.bytes, 1, 1 << 20, file);
    fclose(file);
    return it;
}

/* An answer, in a room of so many bytes with a guard behind it. */
typedef struct {
    uint8_t status;
    size_t length;
    uint8_t room[ROOM + 1];
} answer;

static answer last;

static void begin_answer(void) {
    memset(last.room, 0x5a, sizeof last.room);
    last.length = 7;
}

static void check(text plan, size_t room) {
    begin_answer();
    last.status = bevelrose_check(plan.bytes, plan.length, last.room, room, &last.length);
}

static void open_network(bevelrose_network *network, text plan, size_t room) {
    begin_answer();
    last.status = bevelrose_open(network, plan.bytes, plan.length, last.room, room, &last.length);
}

static void run(bevelrose_network *network, text records, uint64_t limit, size_t room) {
    begin_answer();
    last.status = bevelrose_run(network, records.bytes, records.length, limit, last.room, room, &last.length);
}

/* The last answer is this one: its text where it fits into so much room, and else nothing, and what is behind it is as it was. */
static void expect_answer(uint8_t status, text wanted, size_t room) {
    size_t whole = wanted.length <= room ? wanted.length : 0;
    expect(last.status == status, "another status");
    expect(last.length == wanted.length, "another length");
    expect(memcmp(last.room, wanted.bytes, whole) == 0, "another text");
    for (size_t place = whole; place <= ROOM; place++)
        if (last.room[place] != 0x5a) {
            expect(0, "a byte was written behind the answer");
            break;
        }
}

static void try_rooms(text plan, text records, text report) {
    bevelrose_network network = {0};
    static const size_t rooms[] = {0, 1, 100, 10290, 10291, 10292, ROOM};
    doing = "rooms";
    open_network(&network, plan, 0);
    expect_answer(0, text_of(""), 0);
    for (size_t number = 0; number < sizeof rooms / sizeof *rooms; number++) {
        run(&network, records, BEVELROSE_NO_LIMIT, rooms[number]);
        expect_answer(0, report, rooms[number]);
    }
    check(text_of("format = 2"), 10);
    expect_answer(2, text_of("7 BadFormat"), 10);
    check(text_of("format = 2"), 11);
    expect_answer(2, text_of("7 BadFormat"), 11);
    bevelrose_close(&network);
}

static void try_handles(text plan, text records, text report) {
    bevelrose_network network = {0};
    doing = "handles";
    bevelrose_close(&network);
    run(&network, records, BEVELROSE_NO_LIMIT, ROOM);
    expect_answer(2, text_of("closed"), ROOM);
    open_network(&network, text_of("no network"), ROOM);
    expect_answer(2, text_of("1 Syntax"), ROOM);
    expect(network.network == NULL, "a refused text was opened");
    open_network(&network, plan, ROOM);
    open_network(&network, plan, ROOM);
    expect_answer(0, text_of(""), ROOM);
    open_network(&network, text_of("no network"), ROOM);
    expect_answer(2, text_of("1 Syntax"), ROOM);
    run(&network, records, BEVELROSE_NO_LIMIT, ROOM);
    expect_answer(0, report, ROOM);
    bevelrose_close(&network);
    expect(network.network == NULL, "a closed network is not zero");
    bevelrose_close(&network);
    run(&network, records, BEVELROSE_NO_LIMIT, ROOM);
    expect_answer(2, text_of("closed"), ROOM);
}

static void try_statuses(text plan, text records, text report) {
    bevelrose_network network = {0};
    doing = "statuses";
    open_network(&network, plan, ROOM);
    run(&network, text_of("nobody,1\n"), BEVELROSE_NO_LIMIT, ROOM);
    expect_answer(2, text_of("11 UnknownInput record 1"), ROOM);
    run(&network, text_of("one field\n"), BEVELROSE_NO_LIMIT, ROOM);
    expect_answer(2, text_of("9 Csv record 1"), ROOM);
    run(&network, records, 0, ROOM);
    expect(last.status == 3 && last.length > 8 && memcmp(last.room + last.length - 8, "stopped\n", 8) == 0, "a limit of 0 did not stop it");
    run(&network, text_of(""), BEVELROSE_NO_LIMIT, ROOM);
    expect(last.status == 0 && last.length > 6 && memcmp(last.room + last.length - 6, "quiet\n", 6) == 0, "no records were not run");
    run(&network, records, BEVELROSE_NO_LIMIT, ROOM);
    expect_answer(0, report, ROOM);
    bevelrose_close(&network);
}

/* Texts of which a byte is another, or the rest is missing: any answer will do. */
static void try_broken(text plan, text records) {
    bevelrose_network network = {0};
    doing = "broken texts";
    for (size_t place = 0; place < plan.length; place++) {
        uint8_t was = plan.bytes[place];
        plan.bytes[place] = 0xff;
        check(plan, ROOM);
        expect(last.status == 0 || last.status == 2, "another status");
        plan.bytes[place] = was;
        check((text){plan.bytes, place}, ROOM);
        expect(last.status == 0 || last.status == 2, "another status");
    }
    open_network(&network, plan, ROOM);
    for (size_t place = 0; place < records.length; place++) {
        uint8_t was = records.bytes[place];
        records.bytes[place] = 0xff;
        run(&network, records, BEVELROSE_NO_LIMIT, ROOM);
        expect(last.status <= 2, "another status");
        records.bytes[place] = was;
        run(&network, (text){records.bytes, place}, BEVELROSE_NO_LIMIT, ROOM);
        expect(last.status <= 2, "another status");
    }
    bevelrose_close(&network);
}

static int by_size(const void *one, const void *other) {
    long a = *(const long *)one, b = *(const long *)other;
    return (a > b) - (a < b);
}

static long now(void) {
    struct timespec time;
    clock_gettime(CLOCK_MONOTONIC, &time);
    return time.tv_sec * 1000000000L + time.tv_nsec;
}

/* The median of 10,000 calls, in nanoseconds: of a plan of three blocks over one record, once with a network that is open, and once with
 * one that is opened for each run. */
static void measure(void) {
    static long times[2][10000];
    text plan = text_of("format = 1\n"
                        "[[block]]\nname = \"in\"\nkind = \"buffer\"\ninput = true\n"
                        "[[block]]\nname = \"twice\"\nkind = \"transform\"\nwork = [\"int\", \"mul 2\"]\n"
                        "[[block]]\nname = \"out\"\nkind = \"action\"\nwork = []\n"
                        "[[link]]\nfrom = \"in\"\nto = \"twice\"\npropagate = true\n"
                        "[[link]]\nfrom = \"twice\"\nto = \"out\"\npropagate = true\n");
    text records = text_of("in,21\n");
    bevelrose_network network = {0};
    uint8_t room[1024] = {0};
    size_t length;
    if (bevelrose_open(&network, plan.bytes, plan.length, room, sizeof room, &length) != 0) {
        printf("%.*s\n", (int)length, room);
        exit(100);
    }
    for (int number = 0; number < 10000; number++) {
        long began = now();
        bevelrose_run(&network, records.bytes, records.length, BEVELROSE_NO_LIMIT, room, sizeof room, &length);
        long ran = now();
        bevelrose_open(&network, plan.bytes, plan.length, room, sizeof room, &length);
        bevelrose_run(&network, records.bytes, records.length, BEVELROSE_NO_LIMIT, room, sizeof room, &length);
        times[0][number] = ran - began;
        times[1][number] = now() - ran;
    }
    qsort(times[0], 10000, sizeof **times, by_size);
    qsort(times[1], 10000, sizeof **times, by_size);
    printf("run %ld ns, open and run %ld ns\n", times[0][5000], times[1][5000]);
    printf("%.*s", (int)length, room);
    bevelrose_close(&network);
}

int main(int count, char **arguments) {
    if (count < 2)
        return 100;
    if (count > 2) {
        measure();
        return 0;
    }
    text plan = read_text(arguments[1], "batches.toml");
    text records = read_text(arguments[1], "batches.csv");
    text report = read_text(arguments[1], "batches.report");
    try_rooms(plan, records, report);
    try_handles(plan, records, report);
    try_statuses(plan, records, report);
    free(plan.bytes);
    free(records.bytes);
    free(report.bytes);
    plan = read_text(arguments[1], "matches.toml");
    records = read_text(arguments[1], "matches.csv");
    try_broken(plan, records);
    free(plan.bytes);
    free(records.bytes);
    return failures < 99 ? (int)failures : 99;
}

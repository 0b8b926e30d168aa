/* Runs examples/batches.toml over its records, and compares the report with the one that is stored. It takes the folder of examples. */
#include "bevelrose.h"

#include <stdio.h>
#include <stdlib.h>
#include <string.h>

typedef struct {
    uint8_t *bytes;
    size_t length;
} text;

static void stop(const char *what, const char *why) {
    fprintf(stderr, "batches: %s: %s\n", what, why);
    exit(2);
}

static uint8_t *room_for(size_t length) {
    uint8_t *room = calloc(length + 1, 1);
    if (room == NULL)
        stop("memory", "there is none");
    return room;
}

/* The text of a file. */
static text read_text(const char *folder, const char *name) {
    char path[1024];
    snprintf(path, sizeof path, "%s/%s", folder, name);
    FILE *file = fopen(path, "rb");
    if (file == NULL || fseek(file, 0, SEEK_END) != 0)
        stop(path, "it can't be read");
    text it = {NULL, (size_t)ftell(file)};
    it.bytes = room_for(it.length);
    rewind(file);
    if (fread(it.bytes, 1, it.length, file) != it.length)
        stop(path, "it can't be read");
    fclose(file);
    return it;
}

/* The report of a run: where the room was too small for it, the same call is made with more room. */
static text run(bevelrose_network *network, text records, uint8_t *status) {
    text report = {room_for(1024), 1024};
    size_t length;
    *status = bevelrose_run(network, records.bytes, records.length, BEVELROSE_NO_LIMIT, report.bytes, report.length, &length);
    if (length > report.length) {
        free(report.bytes);
        report = (text){room_for(length), length};
        *status = bevelrose_run(network, records.bytes, records.length, BEVELROSE_NO_LIMIT, report.bytes, report.length, &length);
    }
    report.length = length;
    return report;
}

int main(int count, char **arguments) {
    const char *folder = count > 1 ? arguments[1] : "..";
    text plan = read_text(folder, "batches.toml");
    text records = read_text(folder, "batches.csv");
    text stored = read_text(folder, "batches.report");

    bevelrose_network network = {0};
    uint8_t line[128] = {0};
    size_t length;
    if (bevelrose_version() != BEVELROSE_VERSION)
        stop("libbevelrose", "it is not of this header");
    if (bevelrose_open(&network, plan.bytes, plan.length, line, sizeof line - 1, &length) != 0)
        stop("batches.toml", (char *)line);

    uint8_t status;
    text report = run(&network, records, &status);
    int is_same = report.length == stored.length && memcmp(report.bytes, stored.bytes, stored.length) == 0;
    printf("status %d, a report of %zu bytes: %s\n", status, report.length, is_same ? "as it is stored" : "not the one that is stored");

    bevelrose_close(&network);
    free(report.bytes);
    free(stored.bytes);
    free(records.bytes);
    free(plan.bytes);
    return is_same && status == BEVELROSE_QUIET ? 0 : 1;
}

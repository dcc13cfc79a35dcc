/* read_log LOG [house]: reads a log from its end and prints each record's kind and time, the second or -, and of a bus
   record's frames the source and the data. Checks are by the Annex G rule, or by the house rule. Last comes what ended
   the reading. */
#include "../lefkanu.h"

#include <errno.h>
#include <stdio.h>
#include <stdlib.h>
#include <string.h>

static int fail(const char *message)
{
    fprintf(stderr, "read_log: %s\n", message);
    return 1;
}

/* All octets of a file, and how many; NULL where it can't be read, and then errno says why. */
static uint8_t *read_file(const char *name, size_t *octets)
{
    FILE *file = fopen(name, "rb");
    if (file == NULL)
        return NULL;
    size_t room = 65536, used = 0;
    uint8_t *log = malloc(room);
    while (log != NULL) {
        used += fread(log + used, 1, room - used, file);
        if (used < room)
            break;
        room *= 2;
        uint8_t *longer = realloc(log, room);
        if (longer == NULL)
            free(log);
        log = longer;
    }
    int why = errno;
    if (ferror(file)) {
        free(log);
        log = NULL;
    }
    fclose(file);
    errno = why;
    *octets = used;
    return log;
}

/* Prints the frames of a bus record. Answers 0, or the question that ended the reading. */
static uint8_t list_frames(uint8_t rule, const uint8_t *run, size_t octets)
{
    size_t report[2] = {0, 0}, header[8];
    for (;;) {
        uint8_t answer = lefkanu_find_frame(rule, run, octets, report[0] + report[1], report);
        if (answer != 0)
            return answer == LEFKANU_NONE ? 0 : answer;
        const uint8_t *frame = run + report[0];
        answer = lefkanu_mstp_decode(rule, frame, report[1], header);
        if (answer != 0)
            return answer;
        printf("  source %zu data", header[2]);
        for (size_t i = 0; i < header[7]; i++)
            printf(" %02X", frame[header[6] + i]);
        printf("\n");
    }
}

/* Prints the records of a log, newest first. Answers LEFKANU_NONE at the log's start, or the question that ended it. */
static uint8_t list_records(uint8_t rule, const uint8_t *log, size_t octets)
{
    static const char *const kinds[] = {"", "bus", "ip", "ethernet"};
    size_t end = octets, record[LEFKANU_RECORD_NUMBERS];
    for (;;) {
        uint8_t answer = lefkanu_read_record(log, octets, end, record);
        if (answer != 0)
            return answer;
        if (record[3] == LEFKANU_SECOND)
            printf("%s %zu\n", kinds[record[0]], record[4]);
        else
            printf("%s -\n", kinds[record[0]]);
        if (record[0] == 1) {
            answer = list_frames(rule, log + record[1], record[2]);
            if (answer != 0)
                return answer;
        }
        end = record[1];
    }
}

int main(int count, char **arguments)
{
    if (lefkanu_layout_version() != LEFKANU_LAYOUT_VERSION)
        return fail("liblefkanu.a has another layout version than lefkanu.h");
    uint8_t rule = LEFKANU_ANNEX_G;
    if (count == 3 && strcmp(arguments[2], "house") == 0)
        rule = LEFKANU_HOUSE;
    else if (count != 2)
        return fail("usage: read_log LOG [house]");
    size_t octets;
    uint8_t *log = read_file(arguments[1], &octets);
    if (log == NULL) {
        fprintf(stderr, "read_log: %s cannot be read: %s\n", arguments[1], strerror(errno));
        return 1;
    }
    uint8_t answer = list_records(rule, log, octets);
    free(log);
    if (answer == LEFKANU_NONE)
        printf("start reached\n");
    else
        printf("question %u\n", answer);
    if (fflush(stdout) != 0 || ferror(stdout))
        return fail("standard output cannot be written");
    return 0;
}

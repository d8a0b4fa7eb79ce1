/* Which stretches have a distance of at least 20 m and a grade worse than 3?
 *
 * Build it with the static library, from the top of the repository:
 *
 *     tools/build
 *     gcc -std=c99 -Wall -Wextra -Wpedantic -Iinclude examples/c/example.c \
 *         -Ltarget/staticlib -lstaplethread -o target/example
 */
#include <stdio.h>
#include <stdlib.h>
#include <string.h>

#include "staplethread.h"

/* p = 31, so a digit is below B = 16. No table is longer than 8 * 8192 bytes. */
enum { PRIME = 31, WEIGHT = 75, DISTANCE_DIGITS = 3, GRADE_DIGITS = 1, SLOTS = 4 };
enum { LONGEST_TABLE = 8 * 8192 };
enum { HEAD = 6, RECORD = 4 };

static const uint8_t card[] = {
    0xC5, 0x48, PRIME, WEIGHT, 2, 0,
    0xC5, 0x51, 4, DISTANCE_DIGITS, /* distance >= .. */
    0xC5, 0x51, 3, GRADE_DIGITS,    /* grade > .. */
};

/* Ends the program where an operation refused. */
static void expect(const char *operation, uint8_t status)
{
    if (status != 0) {
        fprintf(stderr, "%s refused %u\n", operation, (unsigned)status);
        exit(1);
    }
}

/* Distance in metres (up to 4095) and grade (up to 15), as the slots of one side. */
static void encode(uint64_t distance, uint64_t grade, uint8_t slots[SLOTS])
{
    expect("encode", staplethread_encode(PRIME, DISTANCE_DIGITS, distance, slots, SLOTS));
    expect("encode", staplethread_encode(PRIME, GRADE_DIGITS, grade, slots + DISTANCE_DIGITS,
                                         SLOTS - DISTANCE_DIGITS));
}

static void print_report(const char *operation, staplethread_report report)
{
    printf("%s: gates %u products %u squares %u cost %lu depth %u\n", operation,
           (unsigned)report.gates, (unsigned)report.products, (unsigned)report.squares,
           (unsigned long)report.cost.hundredths, (unsigned)report.depth.levels);
}

/* How many gates are held at once, at most, where each is let go after its last use. */
static unsigned most_held(const uint16_t *list, unsigned gates)
{
    unsigned most = 0, k, i;

    for (k = 0; k < gates; k++) {
        unsigned held = 0;

        for (i = 0; i <= k; i++)
            held += list[i] >= k;
        if (held > most)
            most = held;
    }
    return most;
}

/* The card filled in condition by condition, as it comes in over the radio. */
static staplethread_report fill_in(uint8_t *table, size_t table_length)
{
    staplethread_state state = STAPLETHREAD_NO_BUILD;
    staplethread_report report;
    size_t i;

    expect("begin", staplethread_begin(&state, PRIME, WEIGHT, table, table_length));
    for (i = HEAD; i < sizeof card; i += RECORD)
        expect("add", staplethread_add(&state, card + i, RECORD, table, table_length));
    expect("finish", staplethread_finish_report(&state, table, table_length, &report));
    return report;
}

int main(void)
{
    static const struct { uint64_t distance, grade; } records[] = { { 34, 4 }, { 12, 5 } };
    static uint8_t stepped[LONGEST_TABLE];
    staplethread_report report, offer;
    uint8_t query[SLOTS], which;
    size_t table_length, part_length, i;
    uint8_t *table, *work;
    uint16_t *list, gates;

    expect("forecast", staplethread_forecast_report(card, sizeof card, &report));
    print_report("forecast", report);

    table_length = 8 * ((size_t)report.gates + 1);
    table = malloc(table_length);
    work = malloc(report.gates);
    list = malloc(report.gates * sizeof *list);
    if (table == NULL || work == NULL || list == NULL) {
        fputs("no memory\n", stderr);
        return 1;
    }

    expect("build", staplethread_build_report(card, sizeof card, table, table_length, &report));
    print_report("build", report);
    expect("check", staplethread_check_report(table, table_length, &report));
    print_report("check", report);
    expect("last_uses", staplethread_last_uses(table, table_length, list, report.gates, &gates));
    printf("held at once: at most %u of %u\n", most_held(list, gates), (unsigned)gates);

    print_report("finish", fill_in(stepped, sizeof stepped));
    printf("as built in one go: %s\n", memcmp(stepped, table, table_length) == 0 ? "yes" : "no");

    /* Is there a cheaper table that is no deeper? */
    expect("build_within", staplethread_build_within_report(card, sizeof card, report.depth,
                                                            table, table_length,
                                                            stepped, sizeof stepped,
                                                            &which, &part_length, &offer));
    print_report("build_within", offer);
    printf("handed back: %lu bytes of table %u\n", (unsigned long)part_length, (unsigned)which);

    encode(20, 3, query);
    for (i = 0; i < sizeof records / sizeof records[0]; i++) {
        uint8_t record[SLOTS], bit;

        encode(records[i].distance, records[i].grade, record);
        expect("run", staplethread_run(table, table_length, record, SLOTS, query, SLOTS,
                                       work, report.gates, &bit));
        printf("distance %lu m, grade %lu: %u, at depth %u\n", (unsigned long)records[i].distance,
               (unsigned long)records[i].grade, (unsigned)bit, (unsigned)report.depth.levels);
    }

    free(list);
    free(work);
    free(table);
    return 0;
}

/* Staplethread for C and C++: query cards, gate tables and digits.
 *
 * The rules are those of document 01, "The query builder and its exact rules", and of scored queries,
 * of constants near zero, of last-use lists, of products that nothing uses, of two conditions over the
 * same field, of step sizes and of cards filled in condition by condition those of document 02.
 *
 * A list is a pointer, then its length: in bytes, or of a last-use list in entries of two bytes.
 * Pointers are not null, not even those of empty lists. What a call writes overlaps nothing else that
 * is lent to it. Nothing is kept after a call but what is lent, nothing is allocated, and calls on
 * separate buffers may run at the same time.
 *
 * Every operation but Trim answers 0 on success, or the number of its refusal. A refusal leaves
 * every lent byte, entry and number unaltered. Where several rules are broken, the number is that of
 * the first one in the order given here.
 */
#ifndef STAPLETHREAD_H
#define STAPLETHREAD_H

#include <stddef.h>
#include <stdint.h>

#ifdef __cplusplus
extern "C" {
#endif

/* A depth counts levels, a cost counts hundredths. Types of their own, so that neither is taken for
 * the other. */
typedef struct staplethread_depth {
    uint16_t levels;
} staplethread_depth;

typedef struct staplethread_cost {
    uint32_t hundredths;
} staplethread_cost;

/* What Build, Forecast, Check and Finish answer, and Build within a depth cap of the part handed back: the
 * gate count G, the products, the squares, the cost (100 times the products plus s times the squares)
 * and the depth. */
typedef struct staplethread_report {
    uint16_t gates;
    uint16_t products;
    uint16_t squares;
    staplethread_cost cost;
    staplethread_depth depth;
} staplethread_report;

/* ---- Numbers as digits, each below B = (p+1)/2, lowest first */

/* Encode: fills the first n bytes of out with the digits of number, and no later one.
 *  3  p not one of the odd primes from 3 to 251
 *  9  n not 1 to 16
 * 21  out under n bytes
 * 22  number not below B^n */
uint8_t staplethread_encode(uint8_t p, size_t n, uint64_t number, uint8_t *out, size_t out_length);

/* Decode: the number that the digits stand for.
 *  3  p not one of the odd primes from 3 to 251
 *  9  list length not 1 to 16
 * 23  a digit of B or more
 * 24  number above 2^64-1 */
uint8_t staplethread_decode(uint8_t p, const uint8_t *digits, size_t digits_length,
                            uint64_t *number);

/* ---- Cards
 *
 * A plain card asks whether all conditions hold. Head, 6 bytes: mark 0xC5 0x48, p, weight s
 * (hundredths, 50 to 100), condition count c (1 to 8), spare 0. Then c condition records of 4 bytes:
 * mark 0xC5 0x51, relation, n (1 to 16). The digits of all conditions together, N, are at most 16.
 * Relations between left (record) and right (query): 1 <, 2 <=, 3 >, 4 >=, 5 =, 6 not equal. Each
 * condition takes the next n slots on both sides.
 *
 * A score card asks for the sum of the weights of the conditions that hold. Its head has the mark
 * 0xC5 0x53, its condition records have 6 bytes: mark 0xC5 0x57, relation, n, weight (1 to p-1),
 * spare 0. The weights of all conditions together are below p.
 *
 * A shared card asks whether all conditions hold, and its conditions may be over the same left slots.
 * Its head has the mark 0xC5 0x4A, its condition records have 6 bytes: mark 0xC5 0x52, relation, n,
 * first left slot, spare 0. The first left slot plus n is at most 16; left slots may be shared,
 * overlap or be left out. Each condition takes the next n right slots, N in all.
 */

/* Forecast: the report on the card's table, from the card only.
 *  1  card under 6 bytes
 *  2  head mark
 *  3  p not one of the odd primes from 3 to 251
 *  4  s not 50 to 100
 *  5  spare not 0
 *  6  c not 1 to 8
 *  7  length not 6+4c, or 6+6c of a score card and of a shared card
 *     then by condition
 *  2  mark
 *  8  relation not 1 to 6
 *  9  n not 1 to 16
 * 25  of a score card: weight 0, or p and more
 * 28  of a shared card: first left slot plus n above 16
 *  5  of a score card and of a shared card: spare not 0
 *     then
 * 10  N over 16, of a shared card the right slots
 * 26  of a score card: total weight p or more */
uint8_t staplethread_forecast(const uint8_t *card, size_t card_length,
                              uint16_t *gates, uint16_t *products, uint16_t *squares,
                              uint32_t *cost, uint16_t *depth);

/* Build: fills exactly the first 8(G+1) bytes of table with the card's table, and no later one.
 * Refuses as Forecast does, and last
 * 11  table lent under 8(G+1) bytes */
uint8_t staplethread_build(const uint8_t *card, size_t card_length,
                           uint8_t *table, size_t table_length,
                           uint16_t *gates, uint16_t *products, uint16_t *squares,
                           uint32_t *cost, uint16_t *depth);

/* Build within a depth cap: two tables of a plain card, and which of them to take. The first bytes of
 * first become the table that Build writes, those of second the table of the best step size: none that
 * is cap levels deep at most costs less, and of those that cost the same it has the lowest depth, then
 * the lowest step size. Each fills exactly the 8(G+1) bytes of its own G; later bytes of both are kept.
 *
 * The part handed back is the cheaper one within the cap, that of first where both cost the same. which
 * tells where it stands, 1 at the start of first, 2 at the start of second, and part_length how many
 * bytes it has; the five numbers are what Check answers for it. Both tables answer the card for digits
 * below B.
 *
 * Forecast tells how many bytes first needs. second may need some more or many fewer; no table is
 * longer than 65536 bytes. A call takes some 130 KB of stack, twice as much as Check.
 *
 * Refuses as Forecast does of plain cards, with 2 for the head mark of another form, then
 * 29  neither the table that Build writes nor that of any step size is cap levels deep at most
 * 11  first or second lent under the 8(G+1) bytes of its table */
uint8_t staplethread_build_within(const uint8_t *card, size_t card_length, uint16_t cap,
                                  uint8_t *first, size_t first_length,
                                  uint8_t *second, size_t second_length,
                                  uint8_t *which, size_t *part_length,
                                  uint16_t *gates, uint16_t *products, uint16_t *squares,
                                  uint32_t *cost, uint16_t *depth);

/* ---- A plain card filled in condition by condition
 *
 * Begin, then Add for each condition, then Finish. Every call is lent the same table and the same state,
 * and nobody else writes either meanwhile. What Finish leaves in the table, and what it answers, is what
 * Build does for the whole card over the bytes that Begin found. An accepted Begin starts afresh, also
 * over an open build; an accepted Finish closes the build; a refused call changes neither the table nor
 * the state.
 *
 * Check and Run may come in between: while the build is open the head tells the slots and gates so far,
 * and Run answers the newest condition; before the first one Check gives 13.
 */

/* The build's state: all words are 0 at the start, when no build is open, and belong to the calls below
 * from then on. Other words are answered too, most of them with 31; of a table that was made by words
 * which no accepted call left nothing is promised but that no byte beyond it is written. */
typedef struct staplethread_state {
    uint16_t words[24];
} staplethread_state;

#define STAPLETHREAD_NO_BUILD {{0}}

/* Begin: fills the first 8 bytes of table with the head of a table of no slots and no gates.
 *  3  p not one of the odd primes from 3 to 251
 *  4  s not 50 to 100
 * 11  table lent under 8 bytes */
uint8_t staplethread_begin(staplethread_state *state, uint8_t p, uint8_t s,
                           uint8_t *table, size_t table_length);

/* Add: the gates of the condition in record, of 4 bytes, after those so far, and the head anew.
 * 31  no build is open
 * 30  eight conditions are added already
 *  7  length not 4
 *  2  mark
 *  8  relation not 1 to 6
 *  9  n not 1 to 16
 * 10  more than 16 slots with those so far
 * 11  table lent under 8(G+1) bytes, G with the gates of the condition */
uint8_t staplethread_add(staplethread_state *state, const uint8_t *record, size_t record_length,
                         uint8_t *table, size_t table_length);

/* Finish: the product tree over the conditions' outputs, and the head anew.
 * 31  no build is open, or no condition is added
 * 11  table lent under 8(G+1) bytes */
uint8_t staplethread_finish(staplethread_state *state, uint8_t *table, size_t table_length,
                            uint16_t *gates, uint16_t *products, uint16_t *squares,
                            uint32_t *cost, uint16_t *depth);

/* ---- Gate tables
 *
 * A table has 8(G+1) bytes. Later bytes are not looked at. Its head has the mark 0x47 0x48, and both
 * sides have as many slots as byte 4 says, N; byte 5 is spare. The table of a shared card has the mark
 * 0x47 0x4A in its head: byte 4 is the left slot count, the highest left slot that is used plus 1, and
 * byte 5 the right slot count, N.
 *
 * The b of a SCALE is its constant: a signed number of 16 bits, two's complement, from -(p-1)/2 to
 * (p-1)/2. A table that was kept from before constants had signs, with a constant above (p-1)/2, is
 * refused with 17; build it anew.
 */

/* Check: the report on a table. Products, squares and cost count the MULs among the output and the
 * gates that it depends on, directly or through others, and two MULs over the same pair of gates, in
 * either order, once; gates and depth are those of the table as it stands.
 * 12  under 8 bytes
 *  2  head mark
 *  3  p not one of the odd primes from 3 to 251
 *  4  s not 50 to 100
 * 13  N, or one of two slot counts, not 1 to 16
 *  5  spare not 0; a head with two slot counts has none
 * 14  G not 1 to 8191
 * 15  under 8(G+1) bytes
 *     then by gate
 *  2  mark
 *  5  spare not 0
 * 16  kind not 1 to 7
 * 17  an operand against its kind: a slot against its side's count, a gate that is not a lower one, a
 *     constant out of range, or a b other than 0 where the kind has none */
uint8_t staplethread_check(const uint8_t *table, size_t table_length,
                           uint16_t *gates, uint16_t *products, uint16_t *squares,
                           uint32_t *cost, uint16_t *depth);

/* Trim: how many of the lent bytes, from the start, are the table: 8(G+1), or 0 where Check refuses.
 * Trim itself turns nothing away. */
size_t staplethread_trim(const uint8_t *table, size_t table_length);

/* Run: the table on a record (left) and a query (right), in the clear. The first G bytes of work then
 * hold the gate values, later ones are kept; output is the last gate's. For a table that Build wrote
 * and digits below B it is, of a plain or a shared card, 1 where all conditions hold and 0 otherwise;
 * of a score card, the sum of the weights of those that hold.
 * Refuses as Check does, then
 * 18  left or right list not as long as its side has slots
 * 19  a value of p or more
 * 20  work under G bytes */
uint8_t staplethread_run(const uint8_t *table, size_t table_length,
                         const uint8_t *left, size_t left_length,
                         const uint8_t *right, size_t right_length,
                         uint8_t *work, size_t work_length,
                         uint8_t *output);

/* The last-use list of a table: entry i of its first G entries becomes the number of the last gate
 * that reads gate i, or i where none does; later entries are kept; gates is G. The output is the last
 * gate, G-1, and has its own number. A runner that has carried gate k out lets go of each gate that
 * it read whose entry is k, and of gate k itself where its own entry is k, unless it is the output.
 * So no gate is read after it was let go, and no list by which that is so, and by which none is let
 * go before it is there, has an earlier entry.
 * Refuses as Check does, then
 * 27  list under G entries */
uint8_t staplethread_last_uses(const uint8_t *table, size_t table_length,
                               uint16_t *list, size_t list_length,
                               uint16_t *gates);

/* ---- The same with a report */

static inline uint8_t staplethread_forecast_report(const uint8_t *card, size_t card_length,
                                                   staplethread_report *report)
{
    return staplethread_forecast(card, card_length,
                                 &report->gates, &report->products, &report->squares,
                                 &report->cost.hundredths, &report->depth.levels);
}

static inline uint8_t staplethread_build_report(const uint8_t *card, size_t card_length,
                                                uint8_t *table, size_t table_length,
                                                staplethread_report *report)
{
    return staplethread_build(card, card_length, table, table_length,
                              &report->gates, &report->products, &report->squares,
                              &report->cost.hundredths, &report->depth.levels);
}

static inline uint8_t staplethread_build_within_report(const uint8_t *card, size_t card_length,
                                                       staplethread_depth cap,
                                                       uint8_t *first, size_t first_length,
                                                       uint8_t *second, size_t second_length,
                                                       uint8_t *which, size_t *part_length,
                                                       staplethread_report *report)
{
    return staplethread_build_within(card, card_length, cap.levels,
                                     first, first_length, second, second_length,
                                     which, part_length,
                                     &report->gates, &report->products, &report->squares,
                                     &report->cost.hundredths, &report->depth.levels);
}

static inline uint8_t staplethread_finish_report(staplethread_state *state,
                                                 uint8_t *table, size_t table_length,
                                                 staplethread_report *report)
{
    return staplethread_finish(state, table, table_length,
                               &report->gates, &report->products, &report->squares,
                               &report->cost.hundredths, &report->depth.levels);
}

static inline uint8_t staplethread_check_report(const uint8_t *table, size_t table_length,
                                                staplethread_report *report)
{
    return staplethread_check(table, table_length,
                              &report->gates, &report->products, &report->squares,
                              &report->cost.hundredths, &report->depth.levels);
}

#ifdef __cplusplus
}
#endif

#endif

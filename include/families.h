/*
 * Part families by k-clique percolation: the C interface of the proved library.
 *
 * Link with libfamilies.a, which `make lib` writes. It needs memcpy and memset of the C library and nothing else,
 * allocates no memory, keeps nothing between calls, and any call may be made at the same time in other threads.
 *
 * A slice is two arguments: the pointer, then the number of elements. A pointer is never null, also for no elements,
 * is aligned for its type, and lent slices do not overlap. What a call only reads is `const`.
 *
 * The four tables are slices of one length: sets, joining entries, smallest cliques, unions. Their contents before a
 * call on a sheet do not matter; such a call that comes as far as 15 leaves them zero. families_slot_bound says how
 * many slots suffice; families_needed tells how many a listing of a sheet will use.
 *
 * The steps families_start, families_insert and families_take_back are lent a journal too. It has 2,016 entries, one for
 * each possible link: the links that remain in order, each lower * 2^32 + higher * 2^16 + weight, then zeros. Tables and
 * journal go together from step to step, as the step before left them. A refused step leaves both as they were.
 *
 * number 0 is accepted. Any other number is a refusal, which writes no output:
 *    1 mark                2 version             3 length               4 part count not 1 to 64
 *    5 a name's form       6 a link's parts      7 weight 0             8 weight above the link before
 *    9 pair given before  10 k not 2 to 6       11 tables, or the clique list, of unequal length
 *   12 a state outside its ranges               13 a set that is no k-clique of the sheet (families_family_mean: at t)
 *   14 a part not below the part count          15 too few slots, or too short a clique list
 *   16 an output too short
 *   17 a dump's mark, version or length         18 a row with a part not below the part count
 *   19 a state with no link to take back        20 a journal of other than 2,016 entries
 *   21 a name equal to an earlier one           22 a product with k above 4
 *   23 a threshold that is not a number         24 lines not whole, too many, or with a part the sheet lacks
 * Every name passes 5 before 21 is told, and 21 comes before the first link or row.
 * place is a byte of the sheet for 1 to 9 and 21 of a call that reads a sheet, a byte of the dump for 4, 5, 17, 18 and 21
 * of families_dump_sheet, else 0. Where it is a byte, for 5 and 21 it is the first of the name, for 21 of the later one.
 */
#ifndef FAMILIES_H
#define FAMILIES_H

#include <stddef.h>
#include <stdint.h>

#ifdef __cplusplus
extern "C" {
#endif

/* The number of the latest change request that has landed, in order of landing; 0: the base. */
#define FAMILIES_EDITION 8

/* On a refusal count and parts are 0. parts is 0 from every call but families_read. */
typedef struct {
    uint8_t number;
    size_t place;
    size_t count;
    size_t parts;
} families_outcome;

/*
 * What goes from step to step of the sequential run beside tables and journal: part count, k, used slots, the weight of
 * the last link (65,535 with no link), how many links remain, and the set of neighbours of each part. A state belongs to
 * the tables and the journal that the same step left. Any other state is safe to pass; its answer means nothing.
 */
typedef struct {
    size_t p, k, used, last, links;
    uint64_t rows[64];
} families_state;

/* A refused start returns a state of zeros, a refused insert or taking back the state that it was given. count is 0. */
typedef struct {
    families_outcome outcome;
    families_state state;
} families_started;

/* The sum of a family's link weights, its whole quotient by their number, and the remainder. On a refusal they are 0. */
typedef struct {
    families_outcome outcome;
    uint64_t sum, quotient, remainder;
} families_mean;

/* The numbers of k-cliques, of joins and of slots. On a refusal they are 0. */
typedef struct {
    families_outcome outcome;
    uint64_t cliques, joins, slots;
} families_need;

/* Reads a sheet's network into lent space: 8 bytes a name, and a number in each list for every link. count = links, parts = parts. */
families_outcome families_read(
    const uint8_t *sheet, size_t sheet_length,
    uint8_t *names, size_t names_length,
    uint16_t *lower, size_t lower_length,
    uint16_t *higher, size_t higher_length,
    uint16_t *weights, size_t weights_length);

/* Writes the sheet of a network. count = bytes. */
families_outcome families_write(
    const uint8_t *names, size_t names_length,
    const uint16_t *lower, size_t lower_length,
    const uint16_t *higher, size_t higher_length,
    const uint16_t *weights, size_t weights_length,
    uint8_t *out, size_t out_length);

/*
 * Writes the sheet of a sensor dump: a pair's weight is the number of rows that hold both its parts. 8,584 bytes are enough for any.
 * count = bytes.
 */
families_outcome families_dump_sheet(
    const uint8_t *dump, size_t dump_length,
    uint8_t *out, size_t out_length);

/* A part's name. count = where its eight bytes start in the sheet. */
families_outcome families_name(const uint8_t *sheet, size_t sheet_length, size_t part);

/* The slots that suffice for p parts and k. count = the bound. */
families_outcome families_slot_bound(size_t p, size_t k);

/* C(n, r) for n 0 to 64 and r 0 to 6. count = C(n, r), 0 outside. */
families_outcome families_subset_count(size_t n, size_t r);

/*
 * Begins a run link by link: no links, tables and journal all zero, whatever they held. Refused in this order: 4, 10, 11,
 * 20.
 */
families_started families_start(
    size_t p, size_t k,
    uint64_t *sets, size_t sets_length,
    uint32_t *entries, size_t entries_length,
    uint64_t *smallest, size_t smallest_length,
    uint64_t *unions, size_t unions_length,
    uint64_t *journal, size_t journal_length);

/*
 * One link more. Refused in this order: 11, 12, 20, then 6 to 9 against the links that remain, 15 for these and the new one
 * together. C cuts a weight above 65,535 silently.
 */
families_started families_insert(
    families_state state,
    uint64_t *sets, size_t sets_length,
    uint32_t *entries, size_t entries_length,
    uint64_t *smallest, size_t smallest_length,
    uint64_t *unions, size_t unions_length,
    uint64_t *journal, size_t journal_length,
    size_t lower, size_t higher, uint16_t weight);

/*
 * Takes the last of the links that remain away: then state, tables and journal are those of the others. Refused in this
 * order: 11, 12, 20, 19.
 */
families_started families_take_back(
    families_state state,
    uint64_t *sets, size_t sets_length,
    uint32_t *entries, size_t entries_length,
    uint64_t *smallest, size_t smallest_length,
    uint64_t *unions, size_t unions_length,
    uint64_t *journal, size_t journal_length);

/*
 * The listing of the links that remain: 16 bytes a community, smallest clique then union. count = communities. It needs no
 * journal. Refused in this order: 11, 12, 16.
 */
families_outcome families_listing_now(
    families_state state,
    const uint64_t *sets, size_t sets_length,
    const uint32_t *entries, size_t entries_length,
    const uint64_t *smallest, size_t smallest_length,
    const uint64_t *unions, size_t unions_length,
    uint8_t *out, size_t out_length);

/* The listing of a sheet's links of weight t or more, by either run. count = communities. C cuts a threshold above 65,535 silently. */
families_outcome families_listing_sequential(
    const uint8_t *sheet, size_t sheet_length, size_t k, uint16_t t,
    uint64_t *sets, size_t sets_length,
    uint32_t *entries, size_t entries_length,
    uint64_t *smallest, size_t smallest_length,
    uint64_t *unions, size_t unions_length,
    uint8_t *out, size_t out_length);

families_outcome families_listing_maximal(
    const uint8_t *sheet, size_t sheet_length, size_t k, uint16_t t,
    uint64_t *sets, size_t sets_length,
    uint32_t *entries, size_t entries_length,
    uint64_t *smallest, size_t smallest_length,
    uint64_t *unions, size_t unions_length,
    uint8_t *out, size_t out_length);

/*
 * The listing of the k-cliques at or above a threshold, by the weakest link of each clique or by the product of its link
 * weights. The product is the double got by multiplying from left to right, pairs by lower then higher part, each product
 * rounded once; any threshold but a NaN is a number, infinities too. By the weakest link it is the listing at t.
 * The rounding direction must be to nearest, C's default.
 *
 * The clique list is lent: sets and products, two slices of one length. All k-cliques of the sheet are stored in it, so it must
 * be as long as their number; slots are needed for those at or above the threshold alone. families_subset_count(p, k) says how
 * long a list suffices. Its contents before the call do not matter.
 * Refused in this order: the sheet (1 to 9, 21), 10, 22 and 23 (by the product only), 11, 15, 16. Up to 11 nothing is written;
 * from 15 on, success too, tables and clique list are zero. count = communities. C cuts a uint16_t threshold above 65,535
 * silently.
 */
families_outcome families_listing_weakest(
    const uint8_t *sheet, size_t sheet_length, size_t k, uint16_t t,
    uint64_t *cliques, size_t cliques_length,
    double *products, size_t products_length,
    uint64_t *sets, size_t sets_length,
    uint32_t *entries, size_t entries_length,
    uint64_t *smallest, size_t smallest_length,
    uint64_t *unions, size_t unions_length,
    uint8_t *out, size_t out_length);

families_outcome families_listing_product(
    const uint8_t *sheet, size_t sheet_length, size_t k, double t,
    uint64_t *cliques, size_t cliques_length,
    double *products, size_t products_length,
    uint64_t *sets, size_t sets_length,
    uint32_t *entries, size_t entries_length,
    uint64_t *smallest, size_t smallest_length,
    uint64_t *unions, size_t unions_length,
    uint8_t *out, size_t out_length);

/*
 * The largest threshold at which a chain joins the k-cliques a and b (the sum of 2^q over a set's parts q), by either run.
 * count = weight, 0 for never.
 */
families_outcome families_meeting_sequential(
    const uint8_t *sheet, size_t sheet_length, size_t k, uint64_t a, uint64_t b,
    uint64_t *sets, size_t sets_length,
    uint32_t *entries, size_t entries_length,
    uint64_t *smallest, size_t smallest_length,
    uint64_t *unions, size_t unions_length);

families_outcome families_meeting_maximal(
    const uint8_t *sheet, size_t sheet_length, size_t k, uint64_t a, uint64_t b,
    uint64_t *sets, size_t sets_length,
    uint32_t *entries, size_t entries_length,
    uint64_t *smallest, size_t smallest_length,
    uint64_t *unions, size_t unions_length);

/*
 * The mean link weight of the family that the k-clique `clique` belongs to over links of weight t or more. Counted is each link that lies in some
 * k-clique of this family; a link with both ends among the family's parts may lie in none. Every k-clique of one family gets the same answer.
 * Refused in this order: the sheet (1 to 9, 21), 10, 11, 13 for a set that is no k-clique at t, 15 for too few slots at t. Up to 13 the tables stay as
 * they were; from 15 on, success too, they are zero. count = links, at least 1. C cuts a threshold above 65,535 silently.
 */
families_mean families_family_mean(
    const uint8_t *sheet, size_t sheet_length, size_t k, uint16_t t, uint64_t clique,
    uint64_t *sets, size_t sets_length,
    uint32_t *entries, size_t entries_length,
    uint64_t *smallest, size_t smallest_length,
    uint64_t *unions, size_t unions_length);

/*
 * What the sequential run needs of a sheet at t, before it: its k-cliques over links of weight t or more, k joins for each, and the slots that it will
 * use. With that many slots, up to 16,777,216, and output enough families_listing_sequential is accepted; with fewer it gets 15. Refused: the sheet
 * (1 to 9, 21), 10. count = 0. C cuts a threshold above 65,535 silently.
 */
families_need families_needed(const uint8_t *sheet, size_t sheet_length, size_t k, uint16_t t);

/*
 * Writes the sheet of p parts with all pairs linked at weight 1, by lower then higher part, and names P00, P01 and on. No sheet of p parts needs more
 * slots for k at any t than this one at t 1. 8,584 bytes are enough for any. Refused: 4, 10, 16. count = bytes.
 */
families_outcome families_fullest_sheet(size_t p, size_t k, uint8_t *out, size_t out_length);

/*
 * The merge tree of a sheet: 26 bytes a line. count = lines. Weight and smallest clique are those of the line's start; its
 * union is that of its class at the last level before it goes into another line, or at the last level of all.
 */
families_outcome families_tree(
    const uint8_t *sheet, size_t sheet_length, size_t k,
    uint64_t *sets, size_t sets_length,
    uint32_t *entries, size_t entries_length,
    uint64_t *smallest, size_t smallest_length,
    uint64_t *unions, size_t unions_length,
    uint8_t *out, size_t out_length);

/*
 * How many rows tree lines take on a page of 72 columns, with the names of a sheet: nothing is written. Refused: the sheet (1 to 9, 21), 24 for bytes
 * that are not whole lines, for more than 999,999 lines, or for a union with a part that the sheet lacks. count = rows.
 */
families_outcome families_page_rows(
    const uint8_t *sheet, size_t sheet_length,
    const uint8_t *lines, size_t lines_length);

/*
 * Writes that page: 73 bytes a row, of which the last is a newline (10). Columns 1-6 hold the line's number, its position from 1, and 7-12 its weight;
 * then six names of its union in part order, ten columns each. Further names stand on rows whose first twelve columns are blank, and a line with no parts
 * takes one row. Refused: as above, then 16. count = rows.
 */
families_outcome families_page(
    const uint8_t *sheet, size_t sheet_length,
    const uint8_t *lines, size_t lines_length,
    uint8_t *out, size_t out_length);

#ifdef __cplusplus
}
#endif

#endif

/* Calls every function of families.h on document 01's examples P8 and P9 and prints what it answers; also sheets that are refused. */
#include <inttypes.h>
#include <stdio.h>
#include <string.h>

#include "families.h"

/* P8 and P9 need so many slots. */
enum { SLOTS = 7, P9_SLOTS = 22, OUT = 128, JOURNAL = 2016 };

static uint64_t sets[P9_SLOTS], smallest[P9_SLOTS], unions[P9_SLOTS], journal[JOURNAL];
static uint32_t entries[P9_SLOTS];
static uint8_t sheet[OUT], out[OUT];
static double products[P9_SLOTS];
static uint64_t cliques[P9_SLOTS];

/* Parts 0, 1, 2 and parts 2, 3, 4 at weight 4, and the link that joins both triangles at weight 2. */
static const uint8_t names[] = "LOCK    MOTOR   BOARD   COIL    DOOR    ";
static const uint16_t lower[] = {0, 0, 1, 2, 2, 3, 1};
static const uint16_t higher[] = {1, 2, 2, 3, 4, 4, 3};
static const uint16_t weights[] = {4, 4, 4, 4, 4, 4, 2};

#define TABLES(n) sets, (n), entries, (n), smallest, (n), unions, (n)
#define LIST(n) cliques, (n), products, (n)
#define STEP(n) TABLES(n), journal, JOURNAL

static void show(const char *call, families_outcome o)
{
    printf("%s: number %u place %zu count %zu parts %zu\n", call, (unsigned)o.number, o.place, o.count, o.parts);
}

static uint64_t number(const uint8_t *bytes, size_t length)
{
    uint64_t n = 0;
    for (size_t i = 0; i < length; i++)
        n = n << 8 | bytes[i];
    return n;
}

static void communities(size_t count)
{
    for (size_t i = 0; i < count; i++)
        printf("  %" PRIu64 "/%" PRIu64 "\n", number(out + 16 * i, 8), number(out + 16 * i + 8, 8));
}

/* Three parts, of which the first two tripped together twice, all three once, and the last one alone once. */
static const uint8_t dump[] = "PRD\0\1\3\0\4LOCK    MOTOR   BOARD   "
    "\0\0\0\0\0\0\0\3" "\0\0\0\0\0\0\0\7" "\0\0\0\0\0\0\0\3" "\0\0\0\0\0\0\0\4";

static void from_dump(void)
{
    size_t length = sizeof dump - 1;
    families_outcome o = families_dump_sheet(dump, length, out, sizeof out);
    show("dump sheet", o);
    for (size_t i = 32; i < o.count; i += 4)
        printf("  %u-%u of %" PRIu64 "\n", (unsigned)out[i], (unsigned)out[i + 1], number(out + i + 2, 2));
    show("dump sheet, no room", families_dump_sheet(dump, length, out, o.count - 1));
    show("dump sheet, a byte short", families_dump_sheet(dump, length - 1, out, sizeof out));
    uint8_t again[sizeof dump];
    memcpy(again, dump, sizeof dump);
    memcpy(again + 24, again + 8, 8);
    show("dump sheet, a name again", families_dump_sheet(again, length, out, sizeof out));
}

/* P8 with the second part's name for the fourth one too. */
static void name_again(size_t length)
{
    uint8_t again[OUT], read_names[40];
    uint16_t a[7], b[7], w[7];
    memcpy(again, sheet, length);
    memcpy(again + 32, again + 16, 8);
    show("read, a name again", families_read(again, length, read_names, 40, a, 7, b, 7, w, 7));
    show("write, a name again", families_write(again + 8, 40, lower, 7, higher, 7, weights, 7, out, sizeof out));
}

static size_t reads_and_writes(void)
{
    uint8_t read_names[40];
    uint16_t a[7], b[7], w[7];
    families_outcome o = families_write(names, 40, lower, 7, higher, 7, weights, 7, sheet, sizeof sheet);
    show("write", o);
    families_outcome r = families_read(sheet, o.count, read_names, 40, a, 7, b, 7, w, 7);
    show("read", r);
    printf("  the same network: %d\n", !memcmp(read_names, names, 40) && !memcmp(a, lower, sizeof a) &&
           !memcmp(b, higher, sizeof b) && !memcmp(w, weights, sizeof w));
    show("read, no room", families_read(sheet, o.count, read_names, 39, a, 7, b, 7, w, 7));
    show("write, no room", families_write(names, 40, lower, 7, higher, 7, weights, 7, out, o.count - 1));
    families_outcome n = families_name(sheet, o.count, 3);
    show("name", n);
    printf("  %.8s\n", (const char *)sheet + n.count);
    show("name of part 5", families_name(sheet, o.count, 5));
    name_again(o.count);
    return o.count;
}

static void show_state(families_state state)
{
    printf("  p %zu k %zu used %zu last %zu links %zu neighbours of part 2: %" PRIu64 "\n", state.p, state.k, state.used, state.last,
           state.links, state.rows[2]);
}

/* The last entry of the journal that is in use, and the one behind it. */
static void show_journal(families_state state)
{
    for (size_t i = state.links > 0 ? state.links - 1 : 0; i <= state.links; i++)
        printf("  journal entry %zu: %" PRIu64 "-%" PRIu64 " of %" PRIu64 "\n", i, journal[i] >> 32, journal[i] >> 16 & 65535,
               journal[i] & 65535);
}

static void show_listing_now(families_state state, size_t slots)
{
    families_outcome o = families_listing_now(state, TABLES(slots), out, sizeof out);
    show("listing now", o);
    communities(o.count);
}

/* A start and the links of P8, as many as the slots allow. */
static families_state steps(size_t slots)
{
    memset(journal, 9, sizeof journal);
    families_started s = families_start(5, 3, STEP(slots));
    show("start", s.outcome);
    show_state(s.state);
    show_journal(s.state);
    for (size_t j = 0; j < 7; j++) {
        s = families_insert(s.state, STEP(slots), lower[j], higher[j], weights[j]);
        if (s.outcome.number != 0 || j == 6)
            show("insert", s.outcome);
    }
    show_state(s.state);
    show_journal(s.state);
    show_listing_now(s.state, slots);
    return s.state;
}

/* From P8: one link taken back and another in its place, all taken back, and one link more than there are. */
static void taken_back(families_state state)
{
    families_started s = families_take_back(state, STEP(SLOTS));
    show("taking back", s.outcome);
    show_state(s.state);
    show_journal(s.state);
    show_listing_now(s.state, SLOTS);
    s = families_insert(s.state, STEP(SLOTS), 1, 3, 3);
    show("insert, weight 3 after the 2 taken back", s.outcome);
    show_journal(s.state);
    show("taking back, an entry short", families_take_back(s.state, TABLES(SLOTS), journal, JOURNAL - 1).outcome);
    show("insert, an entry short", families_insert(s.state, TABLES(SLOTS), journal, JOURNAL - 1, 0, 3, 1).outcome);
    while (s.state.links > 0)
        s = families_take_back(s.state, STEP(SLOTS));
    show("taking back, the first link", s.outcome);
    s = families_take_back(s.state, STEP(SLOTS));
    show("taking back, no link", s.outcome);
    show_state(s.state);
    show_journal(s.state);
    s = families_insert(s.state, STEP(SLOTS), 0, 1, 65535);
    show("insert, weight 65535", s.outcome);
    show_journal(s.state);
}

static void lines(size_t count)
{
    for (size_t i = 0; i < count; i++)
        printf("  weight %" PRIu64 " joins %" PRIu64 " into %" PRIu64 " smallest %" PRIu64 " parts %" PRIu64 "\n",
               number(out + 26 * i, 2), number(out + 26 * i + 2, 4), number(out + 26 * i + 6, 4),
               number(out + 26 * i + 10, 8), number(out + 26 * i + 18, 8));
}

/* P1: at k 3 one line, which starts with three parts and grows to four. */
static const uint8_t grows[] = "PLS\0\1\4\0\5LOCK    MOTOR   BOARD   COIL    "
    "\0\1\0\11" "\0\2\0\11" "\1\2\0\10" "\1\3\0\5" "\2\3\0\5";

static void trees(size_t length)
{
    families_outcome o = families_tree(sheet, length, 3, TABLES(SLOTS), out, sizeof out);
    show("tree", o);
    lines(o.count);
    show("tree, a slot too few", families_tree(sheet, length, 3, TABLES(SLOTS - 1), out, sizeof out));
    o = families_tree(grows, sizeof grows - 1, 3, TABLES(SLOTS), out, sizeof out);
    show("tree, a line that grows", o);
    lines(o.count);
}

static void on_sheet(size_t length)
{
    families_outcome o = families_listing_sequential(sheet, length, 3, 4, TABLES(SLOTS), out, sizeof out);
    show("listing, sequential, t 4", o);
    communities(o.count);
    o = families_listing_maximal(sheet, length, 3, 2, TABLES(SLOTS), out, sizeof out);
    show("listing, maximal, t 2", o);
    communities(o.count);
    show("meeting, sequential", families_meeting_sequential(sheet, length, 3, 7, 28, TABLES(SLOTS)));
    show("meeting, maximal", families_meeting_maximal(sheet, length, 3, 28, 7, TABLES(SLOTS)));
    show("meeting of no clique", families_meeting_maximal(sheet, length, 3, 7, 11, TABLES(SLOTS)));
    show("meeting, k 7", families_meeting_sequential(sheet, length, 7, 7, 28, TABLES(SLOTS)));
    trees(length);
    sheet[length - 4] = 2;
    show("a pair given before", families_listing_sequential(sheet, length, 3, 4, TABLES(SLOTS), out, sizeof out));
}

/* P8 has the triangles 7 and 28 of product 64, and 14 of product 32. */
static void strong(size_t length)
{
    families_outcome o = families_listing_weakest(sheet, length, 3, 4, LIST(3), TABLES(SLOTS), out, sizeof out);
    show("listing, weakest link 4", o);
    communities(o.count);
    o = families_listing_product(sheet, length, 3, 64.0, LIST(3), TABLES(SLOTS), out, sizeof out);
    show("listing, product 64", o);
    communities(o.count);
    o = families_listing_product(sheet, length, 3, 32.0, LIST(3), TABLES(SLOTS), out, sizeof out);
    show("listing, product 32", o);
    communities(o.count);
    show("listing, a clique too few", families_listing_product(sheet, length, 3, 64.0, LIST(2), TABLES(SLOTS), out, sizeof out));
    show("listing, product, k 5", families_listing_product(sheet, length, 5, 64.0, LIST(3), TABLES(SLOTS), out, sizeof out));
    show("listing, weakest link, k 5", families_listing_weakest(sheet, length, 5, 4, LIST(3), TABLES(SLOTS), out, sizeof out));
    double none = 0.0;
    show("listing, no number", families_listing_product(sheet, length, 3, none / none, LIST(3), TABLES(SLOTS), out, sizeof out));
    show("listing, unequal list",
         families_listing_product(sheet, length, 3, 64.0, cliques, 3, products, 2, TABLES(SLOTS), out, sizeof out));
}

static void show_mean(const char *call, families_mean m)
{
    show(call, m.outcome);
    printf("  sum %" PRIu64 " quotient %" PRIu64 " remainder %" PRIu64 "\n", m.sum, m.quotient, m.remainder);
}

/* P9: each part linked to the next two, and parts 0, 5, 10, whose three links lie in no other triangle. */
static void means(void)
{
    static const uint8_t p9_names[] = "A       B       C       D       E       F       G       H       I       J       K       ";
    static const uint16_t a[] = {0, 0, 1, 1, 2, 2, 3, 3, 4, 4, 5, 5, 6, 6, 7, 7, 8, 8, 9, 0, 5, 0};
    static const uint16_t b[] = {1, 2, 2, 3, 3, 4, 4, 5, 5, 6, 6, 7, 7, 8, 8, 9, 9, 10, 10, 5, 10, 10};
    uint16_t w[22];
    uint8_t p9[184];
    for (size_t j = 0; j < 22; j++)
        w[j] = 4;
    families_outcome o = families_write(p9_names, 88, a, 22, b, 22, w, 22, p9, sizeof p9);
    show_mean("mean, clique 7", families_family_mean(p9, o.count, 3, 4, 7, TABLES(P9_SLOTS)));
    show_mean("mean, clique 1057", families_family_mean(p9, o.count, 3, 4, 1057, TABLES(P9_SLOTS)));
    show_mean("mean of no clique at t 5", families_family_mean(p9, o.count, 3, 5, 7, TABLES(P9_SLOTS)));
}

static void show_need(const char *call, families_need n)
{
    show(call, n.outcome);
    printf("  cliques %" PRIu64 " joins %" PRIu64 " slots %" PRIu64 "\n", n.cliques, n.joins, n.slots);
}

/* What the fullest sheet needs, then a run with that many slots and with one fewer. */
static void needs(void)
{
    static uint8_t full[8584];
    families_outcome o = families_fullest_sheet(5, 3, full, sizeof full);
    show("fullest sheet of 5", o);
    printf("  %.24s %d %d %d\n", full + 8, full[48], full[49], full[51]);
    families_need n = families_needed(full, o.count, 3, 1);
    show_need("its need", n);
    show("with that many", families_listing_sequential(full, o.count, 3, 1, TABLES(n.slots), out, sizeof out));
    show("with one fewer", families_listing_sequential(full, o.count, 3, 1, TABLES(n.slots - 1), out, sizeof out));
    show_need("need, t 2", families_needed(full, o.count, 3, 2));
    show_need("need, k 7", families_needed(full, o.count, 7, 1));
    show_need("need, a byte short", families_needed(full, o.count - 1, 3, 1));
    show("fullest, 65 parts and k 7", families_fullest_sheet(65, 7, full, sizeof full));
    show("fullest, k 7", families_fullest_sheet(64, 7, full, 0));
    o = families_fullest_sheet(64, 6, full, sizeof full);
    show("fullest sheet of 64", o);
    show_need("its need", families_needed(full, o.count, 6, 1));
}

/* The tree of P8 on the page, and lines that have none. */
static void pages(size_t length)
{
    static uint8_t lines[78], page[219];
    families_outcome o = families_tree(sheet, length, 3, TABLES(SLOTS), lines, sizeof lines);
    show("tree for a page", o);
    show("page rows", families_page_rows(sheet, length, lines, sizeof lines));
    show("page", families_page(sheet, length, lines, sizeof lines, page, sizeof page));
    printf("%.*s", (int)sizeof page, (const char *)page);
    show("page, no room", families_page(sheet, length, lines, sizeof lines, page, sizeof page - 1));
    show("page, a byte short", families_page(sheet, length, lines, sizeof lines - 1, page, sizeof page));
    lines[77] |= 32;
    show("page, a part too many", families_page_rows(sheet, length, lines, sizeof lines));
    show("page of no lines", families_page(sheet, length, lines, 0, page, 0));
}

int main(void)
{
    printf("edition %d\n", FAMILIES_EDITION);
    size_t length = reads_and_writes();
    from_dump();
    show("slot bound", families_slot_bound(64, 6));
    show("slot bound, k 1", families_slot_bound(64, 1));
    show("subset count", families_subset_count(64, 5));
    show("start, unequal tables", families_start(5, 3, sets, 7, entries, 6, smallest, 7, unions, 7, journal, JOURNAL).outcome);
    show("start, an entry short", families_start(5, 3, TABLES(SLOTS), journal, JOURNAL - 1).outcome);
    taken_back(steps(SLOTS));
    steps(SLOTS - 1);
    strong(length);
    pages(length);
    on_sheet(length);
    means();
    needs();
    return 0;
}

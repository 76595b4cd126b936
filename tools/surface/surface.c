/* Holds include/wuraketozo.h to the library: every constant of the header is what the library answers, every limit what it takes, a fault
 * has the offset that the header says, the options of a reading are found one by one where they stand, each plan has its places and its
 * share, and a pointer with length 0 may be NULL in every call that takes one. Prints how many checks were made; a failed one is named by
 * its line. */
#include <stdio.h>
#include <stdlib.h>
#include <string.h>

#include "wuraketozo.h"

static unsigned checks, failures;

static void check_at(int line, int holds, const char *text)
{
    checks++;
    if (!holds) {
        failures++;
        printf("surface.c:%d: not so: %s\n", line, text);
    }
}
#define CHECK(test) check_at(__LINE__, (test), #test)

static const wuraketozo_address here = {{192, 0, 2, 1}}, there = {{198, 51, 100, 7}};

/* ---- equal answers, field by field ---- */

#define SAME(field) (a.field == b.field)

static int same_reading(wuraketozo_reading a, wuraketozo_reading b)
{
    return SAME(refusal) && SAME(verdict) && SAME(user.from) && SAME(user.to) && SAME(options.from) && SAME(options.to) &&
           SAME(count) && SAME(fill) && SAME(fault_at) && SAME(apc) && SAME(identification) && SAME(place) && SAME(part.from) &&
           SAME(part.to) && SAME(option_start) && SAME(last);
}

static int same_rereading(wuraketozo_rereading a, wuraketozo_rereading b)
{
    return SAME(refusal) && SAME(verdict) && SAME(user.from) && SAME(user.to) && SAME(options.from) && SAME(options.to) &&
           SAME(count) && SAME(fill) && SAME(fault_at) && SAME(apc);
}

static int same_listing(wuraketozo_listing a, wuraketozo_listing b)
{
    return SAME(refusal) && SAME(size) && SAME(fill);
}

static int same_option(wuraketozo_option a, wuraketozo_option b)
{
    return SAME(found) && SAME(kind) && SAME(offset) && SAME(body.from) && SAME(body.to);
}

static int same_original_option(wuraketozo_original_option a, wuraketozo_original_option b)
{
    return SAME(found) && SAME(kind) && SAME(offset) && SAME(body.from) && SAME(body.to);
}

static int same_written(wuraketozo_written a, wuraketozo_written b)
{
    return SAME(refusal) && SAME(size);
}

static int same_answer(wuraketozo_answer a, wuraketozo_answer b)
{
    return SAME(refusal) && SAME(outcome) && SAME(length) && SAME(option_start) && SAME(figures.offered) && SAME(figures.held) &&
           SAME(figures.delivered) && SAME(figures.expired) && SAME(figures.conflicted) && SAME(figures.repeated) &&
           SAME(figures.rejected);
}

static int same_received(wuraketozo_received a, wuraketozo_received b)
{
    return SAME(what) && same_reading(a.reading, b.reading) && same_answer(a.answer, b.answer);
}

/* ---- payloads, with checksum 0 unless they say otherwise ---- */

#define HEAD(length) 0x12, 0x34, 0, 53, 0, (length), 0, 0
static const uint8_t none[] = {HEAD(8)};
static const uint8_t short_area[] = {HEAD(8), 0};
static const uint8_t pad[] = {HEAD(9), 'x', 1, 0, 0};
static const uint8_t malformed[] = {HEAD(8), 0, 0, 6, 5, 0, 0, 0};
static const uint8_t unsafe_kind[] = {HEAD(8), 0, 0, 192};
static const uint8_t fragdata[] = {HEAD(10), 'x', 'y', 0, 0, 3, 10, 0, 22, 0, 0, 0, 7, 0, 8};
static const uint8_t read_list[] = {HEAD(8), 0, 0};
static const uint8_t apc_right[] = {HEAD(8), 0, 0, 2, 6, 0, 0, 0, 0};
static const uint8_t apc_wrong[] = {HEAD(8), 0, 0, 2, 6, 0, 0, 0, 1};
static const uint8_t piece[] = {HEAD(8), 0, 0, 3, 10, 0, 20, 0, 0, 0, 7, 0, 8, 'a', 'b'};
static const uint8_t tail[] = {HEAD(8), 0, 0, 6, 6, 0, 0, 1, 44, 0, 0, 1};
static const uint8_t tail_in_piece[] = {HEAD(8), 0, 0, 3, 10, 0, 22, 0, 0, 0, 7, 0, 8, 0, 1, 'a', 'b'};
static const uint8_t padded[] = {HEAD(8), 0, 0, 6, 6, 0, 0, 1, 44, 1, 1, 1, 1, 1, 1, 1, 1};
static const uint8_t padded_piece[] = {HEAD(8), 0, 0, 1, 1, 1, 1, 1, 1, 1, 1, 3, 10, 0, 28, 0, 0, 0, 11, 0, 8, 'a', 'b'};
static const uint8_t piece_behind_eol[] = {HEAD(8), 0, 0, 3, 10, 0, 21, 0, 0, 0, 9, 0, 8, 0, 1, 'a', 'b'};

#define READ_AS(payload, strictness) wuraketozo_read(payload, sizeof(payload), here, there, strictness)
#define READ(payload) READ_AS(payload, WURAKETOZO_PLAIN)
/* of an original: its bytes are the payload's behind the header */
#define REREAD_AS(payload, strictness) wuraketozo_reread((payload) + 8, sizeof(payload) - 8, 0, strictness)
#define REREAD(payload) REREAD_AS(payload, WURAKETOZO_PLAIN)

/* 33 options of two bytes each */
static uint8_t crowded[10 + 33 * 2] = {HEAD(8), 0, 0};

static void fill_crowded(void)
{
    for (size_t i = 10; i < sizeof crowded; i += 2) {
        crowded[i] = 9;
        crowded[i + 1] = 2;
    }
}

static void verdicts_and_apc(void)
{
    uint8_t summed[64];
    const uint8_t no_options[] = {0};
    wuraketozo_written written = wuraketozo_write(here, there, 4660, 53, none, 0, no_options, 1, 0, summed, sizeof summed);
    CHECK(written.refusal == 0 && written.size == 10);
    CHECK(wuraketozo_read(summed, 10, here, there, WURAKETOZO_STRICT).verdict == WURAKETOZO_READ);
    summed[9] ^= 1;
    CHECK(wuraketozo_read(summed, 10, here, there, WURAKETOZO_STRICT).verdict == WURAKETOZO_BADSUM);
    summed[8] = summed[9] = 0;
    CHECK(wuraketozo_read(summed, 10, here, there, WURAKETOZO_STRICT).verdict == WURAKETOZO_UNSUMMED);
    CHECK(READ(none).verdict == WURAKETOZO_NONE);
    CHECK(READ(short_area).verdict == WURAKETOZO_SHORT);
    CHECK(READ(pad).verdict == WURAKETOZO_PAD);
    CHECK(READ(malformed).verdict == WURAKETOZO_MALFORMED);
    CHECK(READ(unsafe_kind).verdict == WURAKETOZO_UNSAFE);
    CHECK(READ(fragdata).verdict == WURAKETOZO_FRAGDATA);
    CHECK(READ(crowded).verdict == WURAKETOZO_CROWDED);
    CHECK(READ(piece).verdict == WURAKETOZO_PIECE);
    CHECK(READ(tail).verdict == WURAKETOZO_TAIL);
    CHECK(READ(tail).options.from == 0 && READ(tail).options.to == 0 && READ(tail).count == 0 && READ(tail).fill == 0);
    CHECK(wuraketozo_read(tail, sizeof tail - 1, here, there, WURAKETOZO_STRICT).verdict == WURAKETOZO_READ);
    CHECK(wuraketozo_read(tail, sizeof tail - 1, here, there, WURAKETOZO_STRICT).fill == 2);
    CHECK(READ(tail_in_piece).verdict == WURAKETOZO_TAIL && READ(tail_in_piece).part.to == 0);
    CHECK(READ(piece_behind_eol).verdict == WURAKETOZO_PIECE && READ(piece_behind_eol).part.from == 21);
    CHECK(READ(padded).verdict == WURAKETOZO_READ && READ(padded).count == 1);
    CHECK(READ(padded_piece).verdict == WURAKETOZO_PIECE && READ(padded_piece).part.from == 28);
    /* any number but 0 is strict */
    const uint32_t strict[] = {WURAKETOZO_STRICT, 2, 3, 256, 65536, 0x80000000, UINT32_MAX};
    for (size_t i = 0; i < sizeof strict / sizeof strict[0]; i++) {
        wuraketozo_reading found = READ_AS(padded, strict[i]);
        CHECK(found.refusal == 0 && found.verdict == WURAKETOZO_PADDED && found.user.from == 8 && found.user.to == 8);
        CHECK(found.options.from == 0 && found.options.to == 0 && found.count == 0 && found.fill == 0);
        CHECK(wuraketozo_read(padded, sizeof padded - 1, here, there, strict[i]).verdict == WURAKETOZO_READ);
        CHECK(READ_AS(padded_piece, strict[i]).verdict == WURAKETOZO_PADDED && READ_AS(padded_piece, strict[i]).part.to == 0);
        CHECK(REREAD_AS(padded, strict[i]).refusal == 0);
        CHECK(REREAD_AS(padded, strict[i]).verdict == WURAKETOZO_PADDED);
        CHECK(wuraketozo_reread(padded + 8, sizeof padded - 9, 0, strict[i]).verdict == WURAKETOZO_READ);
    }
    CHECK(REREAD(padded).verdict == WURAKETOZO_READ);
    CHECK(READ(read_list).apc == WURAKETOZO_APC_NONE);
    CHECK(READ(apc_right).apc == WURAKETOZO_APC_RIGHT);
    CHECK(READ(apc_wrong).apc == WURAKETOZO_APC_WRONG);
    CHECK(REREAD(read_list).verdict == WURAKETOZO_READ);
    CHECK(REREAD(unsafe_kind).refusal == 5);
    CHECK(REREAD(tail).refusal == 0);
    CHECK(REREAD(tail).verdict == WURAKETOZO_TAIL);
    CHECK(REREAD(apc_wrong).apc == WURAKETOZO_APC_WRONG);
    CHECK(READ(piece).part.from == 20 && READ(piece).part.to == sizeof piece && READ(piece).place == 0);
    CHECK(READ(apc_right).user.from == 8 && READ(apc_right).options.from == 10);
    CHECK(REREAD(apc_right).user.from == 0 && REREAD(apc_right).options.from == 2);
}

/* ---- offsets ---- */

/* Behind an odd UDP length, an option and a NOP; a fragment's option behind another option; behind a NOP. */
static const uint8_t malformed_behind[] = {HEAD(9), 'x', 0, 0, 0, 6, 6, 0, 0, 1, 44, 1, 9, 1};
static const uint8_t frag_late[] = {HEAD(8), 0, 0, 4, 4, 5, 220, 3, 10, 0, 24, 0, 0, 0, 7, 0, 8};
static const uint8_t unsafe_behind[] = {HEAD(8), 0, 0, 4, 4, 5, 220, 1, 192, 0};
static const uint8_t fragdata_behind[] = {HEAD(10), 'x', 'y', 0, 0, 1, 1, 3, 10, 0, 24, 0, 0, 0, 7, 0, 8};

/* Each fault has its offset, and what is none has 0. In an original, whose bytes are a payload's behind the header, it is the same. */
static void fault_offsets(void)
{
    CHECK(READ(malformed).fault_at == 10 && REREAD(malformed).fault_at == 10);
    CHECK(READ(malformed_behind).verdict == WURAKETOZO_MALFORMED && READ(malformed_behind).fault_at == 19);
    CHECK(READ(frag_late).verdict == WURAKETOZO_MALFORMED && READ(frag_late).fault_at == 14);
    CHECK(READ(unsafe_kind).fault_at == 10);
    CHECK(READ(unsafe_behind).verdict == WURAKETOZO_UNSAFE && READ(unsafe_behind).fault_at == 15);
    CHECK(READ(fragdata).fault_at == 12);
    CHECK(READ(fragdata_behind).verdict == WURAKETOZO_FRAGDATA && READ(fragdata_behind).fault_at == 14);
    CHECK(READ(crowded).fault_at == 74 && REREAD(crowded).verdict == WURAKETOZO_CROWDED && REREAD(crowded).fault_at == 74);
    CHECK(READ(tail).fault_at == 18 && REREAD(tail).fault_at == 18);
    CHECK(READ(tail_in_piece).fault_at == 21);
    CHECK(READ_AS(padded, WURAKETOZO_STRICT).fault_at == 23 && REREAD_AS(padded, WURAKETOZO_STRICT).fault_at == 23);
    CHECK(READ_AS(padded_piece, WURAKETOZO_STRICT).fault_at == 17);
    /* one byte of user data: option_start 1 */
    wuraketozo_rereading again = wuraketozo_reread(malformed_behind + 8, sizeof malformed_behind - 8, 1, WURAKETOZO_PLAIN);
    CHECK(again.verdict == WURAKETOZO_MALFORMED && again.fault_at == 19);
    again = wuraketozo_reread(frag_late + 8, sizeof frag_late - 8, 0, WURAKETOZO_PLAIN);
    CHECK(again.verdict == WURAKETOZO_MALFORMED && again.fault_at == 14);
    CHECK(READ(none).fault_at == 0 && READ(short_area).fault_at == 0 && READ(pad).fault_at == 0 && READ(read_list).fault_at == 0);
    CHECK(READ(apc_wrong).fault_at == 0 && READ(piece).fault_at == 0 && READ(padded).fault_at == 0);
    CHECK(REREAD(unsafe_kind).fault_at == 0 && REREAD(read_list).fault_at == 0);
    const uint8_t badsum[] = {HEAD(8), 0, 1};
    CHECK(READ(badsum).verdict == WURAKETOZO_BADSUM && READ(badsum).fault_at == 0);
    CHECK(wuraketozo_read(malformed, 7, here, there, WURAKETOZO_PLAIN).fault_at == 0);
}

/* A NOP, REQ at 11, kind 9 without a body at 17, MRDS at 19, EOL at 24. */
static const uint8_t options[] = {HEAD(8), 0, 0, 1, 6, 6, 0, 0, 1, 44, 9, 2, 5, 5, 0, 1, 2, 0, 0};

static wuraketozo_option next_in(const uint8_t *payload, size_t length, uint32_t verdict, size_t from, size_t to)
{
    const wuraketozo_extent rest = {from, to};
    return wuraketozo_next(payload, length, verdict, rest);
}

static wuraketozo_original_option renext_in(const uint8_t *original, size_t length, uint32_t verdict, size_t from, size_t to)
{
    const wuraketozo_original_extent rest = {from, to};
    return wuraketozo_renext(original, length, verdict, rest);
}

/* Whether there is no option in these bytes of `options` from either call, with a verdict. */
static int nothing_in(uint32_t verdict, size_t from, size_t to)
{
    const wuraketozo_option no_option = {0, 0, 0, {0, 0}};
    const wuraketozo_original_option no_original_option = {0, 0, 0, {0, 0}};
    return same_option(next_in(options, sizeof options, verdict, from, to), no_option) &&
           same_original_option(renext_in(options, sizeof options, verdict, from, to), no_original_option);
}

static void one_by_one(void)
{
    const wuraketozo_option found[] = {{1, 6, 11, {13, 17}}, {1, 9, 17, {19, 19}}, {1, 5, 19, {21, 24}}, {0, 0, 0, {0, 0}}};
    const wuraketozo_original_option refound[] = {{1, 6, 11, {5, 9}}, {1, 9, 17, {11, 11}}, {1, 5, 19, {13, 16}}, {0, 0, 0, {0, 0}}};
    wuraketozo_reading reading = READ(options);
    wuraketozo_rereading rereading = REREAD(options);
    CHECK(reading.count == 3 && reading.options.from == 10 && rereading.count == 3 && rereading.options.from == 2);
    for (size_t i = 0; i < 4; i++) {
        wuraketozo_option option = wuraketozo_next(options, sizeof options, reading.verdict, reading.options);
        wuraketozo_original_option again =
            wuraketozo_renext(options + 8, sizeof options - 8, rereading.verdict, rereading.options);
        CHECK(same_option(option, found[i]));
        CHECK(same_original_option(again, refound[i]));
        reading.options.from = option.body.to;
        rereading.options.from = again.body.to;
    }
    /* an extended option, and one behind it */
    uint8_t extended[10 + 255 + 2] = {HEAD(8), 0, 0, 10, 255, 0, 255};
    extended[265] = 9;
    extended[266] = 2;
    const wuraketozo_option first = {1, 10, 10, {14, 265}}, second = {1, 9, 265, {267, 267}};
    CHECK(same_option(next_in(extended, sizeof extended, WURAKETOZO_READ, 10, 267), first));
    CHECK(same_option(next_in(extended, sizeof extended, WURAKETOZO_READ, 265, 267), second));
    CHECK(next_in(extended, sizeof extended, WURAKETOZO_READ, 10, 264).found == 0);
    /* what no reading gave: FRAG has the form of an option, a fragment's list too */
    const wuraketozo_option frag = {1, 3, 10, {12, 20}};
    CHECK(same_option(next_in(piece, sizeof piece, WURAKETOZO_READ, 10, 20), frag));
    CHECK(next_in(piece, sizeof piece, WURAKETOZO_PIECE, 10, 20).found == 0);
    CHECK(next_in(malformed, sizeof malformed, WURAKETOZO_READ, 10, sizeof malformed).found == 0);
    CHECK(next_in(unsafe_behind, sizeof unsafe_behind, WURAKETOZO_READ, 14, 17).found == 0);
    CHECK(next_in(unsafe_behind, sizeof unsafe_behind, WURAKETOZO_READ, 15, 17).found == 0);
    CHECK(next_in(unsafe_behind, sizeof unsafe_behind, WURAKETOZO_READ, 10, 17).offset == 10);
    /* other verdicts, and extents that are empty, cut an option, end at EOL, are turned round or lie past the end */
    for (uint32_t verdict = 0; verdict < 300; verdict++)
        CHECK(nothing_in(verdict, 10, sizeof options) == (verdict != WURAKETOZO_READ));
    CHECK(nothing_in(UINT32_MAX, 10, sizeof options) && nothing_in(0x80000009, 10, sizeof options));
    CHECK(nothing_in(WURAKETOZO_READ, 10, 10) && nothing_in(WURAKETOZO_READ, 10, 11) && nothing_in(WURAKETOZO_READ, 10, 16));
    CHECK(!nothing_in(WURAKETOZO_READ, 10, 17) && nothing_in(WURAKETOZO_READ, 24, sizeof options));
    CHECK(nothing_in(WURAKETOZO_READ, 17, 11) && nothing_in(WURAKETOZO_READ, 11, sizeof options + 1));
    CHECK(nothing_in(WURAKETOZO_READ, 11, SIZE_MAX) && nothing_in(WURAKETOZO_READ, SIZE_MAX, SIZE_MAX));
    CHECK(nothing_in(WURAKETOZO_READ, SIZE_MAX, 0) && nothing_in(WURAKETOZO_READ, sizeof options, sizeof options));
}

/* ---- the table ---- */

enum { PLAN = 4 };
static wuraketozo_client records[1];
static uint8_t store[WURAKETOZO_SHARE(PLAN)], out[WURAKETOZO_ORIGINAL_LIMIT];

/* Makes the table of one client anew. */
static void start(void)
{
    const uint64_t plan = PLAN;
    CHECK(wuraketozo_plan(records, &plan, 1) == sizeof store);
    CHECK(wuraketozo_reset(records, 1, store, sizeof store).outcome == WURAKETOZO_RESET);
}

static wuraketozo_fragment fragment(size_t place, uint32_t last)
{
    wuraketozo_fragment f = {0, {{{0}}, {{0}}, 0, 0}, 7, place, 2, last};
    return f;
}

#define OFFER(place, bytes, last) \
    wuraketozo_offer(records, 1, store, sizeof store, 0, fragment(place, last), (const uint8_t *)(bytes), sizeof(bytes) - 1, out, \
                     sizeof out)
#define RECEIVE_AS(payload, strictness) \
    wuraketozo_receive(records, 1, store, sizeof store, 0, 0, here, there, strictness, payload, sizeof(payload), out, sizeof out)
#define RECEIVE(payload) RECEIVE_AS(payload, WURAKETOZO_PLAIN)

static void outcomes(void)
{
    start();
    CHECK(OFFER(0, "ab", 0).outcome == WURAKETOZO_STORED);
    CHECK(OFFER(0, "ab", 0).outcome == WURAKETOZO_REPEATED);
    CHECK(OFFER(1, "xy", 0).outcome == WURAKETOZO_CONFLICT);
    CHECK(OFFER(0, "ab", 0).outcome == WURAKETOZO_STORED);
    wuraketozo_answer delivered = OFFER(2, "cd", 1);
    CHECK(delivered.outcome == WURAKETOZO_DELIVERED && delivered.length == 4 && delivered.option_start == 2);
    CHECK(memcmp(out, "abcd", 4) == 0);
    CHECK(wuraketozo_advance(records, 1, store, sizeof store, 0, 5).outcome == WURAKETOZO_ADVANCED);
    CHECK(wuraketozo_account(records, 1, store, sizeof store, 0).outcome == WURAKETOZO_ACCOUNT);
    CHECK(wuraketozo_account(records, 1, store, sizeof store, 1).outcome == WURAKETOZO_REFUSED);
    CHECK(wuraketozo_reset(records, 1, store, sizeof store).outcome == WURAKETOZO_RESET);
    CHECK(RECEIVE(apc_right).what == WURAKETOZO_DATAGRAM);
    CHECK(RECEIVE(piece).what == WURAKETOZO_FRAGMENT);
    CHECK(RECEIVE(tail_in_piece).what == WURAKETOZO_DATAGRAM && RECEIVE(tail_in_piece).reading.verdict == WURAKETOZO_TAIL);
    CHECK(RECEIVE(tail_in_piece).reading.fault_at == 21 && RECEIVE(malformed_behind).reading.fault_at == 19);
    CHECK(RECEIVE(piece_behind_eol).what == WURAKETOZO_FRAGMENT);
    CHECK(wuraketozo_account(records, 1, store, sizeof store, 0).figures.offered == 5);
    CHECK(RECEIVE_AS(padded_piece, WURAKETOZO_STRICT).what == WURAKETOZO_DATAGRAM);
    CHECK(RECEIVE_AS(padded_piece, UINT32_MAX).reading.verdict == WURAKETOZO_PADDED);
    CHECK(wuraketozo_account(records, 1, store, sizeof store, 0).figures.offered == 5);
    CHECK(RECEIVE(padded_piece).what == WURAKETOZO_FRAGMENT);
    CHECK(RECEIVE_AS(piece, WURAKETOZO_STRICT).answer.outcome == WURAKETOZO_REPEATED);
    CHECK(wuraketozo_account(records, 1, store, sizeof store, 0).figures.offered == 9);
    CHECK(wuraketozo_receive(records, 1, store, sizeof store, 0, 0, here, there, WURAKETOZO_STRICT, none, 7, out, sizeof out).what ==
          WURAKETOZO_UNREAD);
}

/* ---- the limits ---- */

#define MOST_RECORDS (WURAKETOZO_CLIENT_LIMIT + 1)
static wuraketozo_client many[MOST_RECORDS], kept[MOST_RECORDS];
static uint8_t long_store[WURAKETOZO_SHARE(MOST_RECORDS * WURAKETOZO_ASSEMBLY_LIMIT)], long_report[WURAKETOZO_ORIGINAL_LIMIT + 1];

/* The answer to a fragment of `length` bytes with an identification and a room in out. */
static wuraketozo_answer offered(uint32_t identification, size_t place, size_t length, uint32_t last, size_t room)
{
    wuraketozo_fragment f = fragment(place, last);
    f.identification = identification;
    f.option_start = 0;
    return wuraketozo_offer(records, 1, store, sizeof store, 0, f, long_report, length, out, room);
}

/* Each limit of the header is the library's: what it says of itself, and what it takes. */
static void limits(void)
{
    const uint64_t plans[WURAKETOZO_CLIENT_LIMIT] = {1, 2, 3, 4, 5, 6, 7, 8, 1, 8, 1, 8};
    CHECK(wuraketozo_record_size() == sizeof records[0] && wuraketozo_layout_7() == sizeof records[0]);
    CHECK(sizeof records[0] == 72 + WURAKETOZO_ASSEMBLY_LIMIT * (32 + WURAKETOZO_FRAGMENT_LIMIT * 8));
    CHECK(wuraketozo_out_size() == WURAKETOZO_ORIGINAL_LIMIT);
    CHECK(wuraketozo_client_limit() == WURAKETOZO_CLIENT_LIMIT);
    for (size_t count = 1; count <= WURAKETOZO_CLIENT_LIMIT; count++) {
        const size_t length = wuraketozo_plan(many, plans, count);
        CHECK(wuraketozo_reset(many, count, long_store, length - 1).refusal == 20);
        CHECK(wuraketozo_reset(many, count, long_store, length + 1).refusal == 20);
        CHECK(wuraketozo_reset(many, count, long_store, length).refusal == 0);
    }
    many[WURAKETOZO_CLIENT_LIMIT].plan = 1;
    CHECK(wuraketozo_reset(many, 0, long_store, 0).refusal == 20);
    CHECK(wuraketozo_reset(many, MOST_RECORDS, long_store, WURAKETOZO_SHARE(36 + 1 + 8 + 1 + 8 + 1)).refusal == 20);
    start();
    CHECK(offered(1, 0, 1, 0, WURAKETOZO_ORIGINAL_LIMIT - 1).refusal == 23);
    CHECK(offered(1, 0, WURAKETOZO_ORIGINAL_LIMIT + 1, 1, sizeof out).refusal == 25);
    CHECK(offered(1, WURAKETOZO_ORIGINAL_LIMIT, 1, 1, sizeof out).refusal == 25);
    CHECK(offered(1, 0, WURAKETOZO_ORIGINAL_LIMIT, 1, sizeof out).length == WURAKETOZO_ORIGINAL_LIMIT);
    for (uint32_t id = 1; id <= PLAN; id++)
        CHECK(offered(id, 0, 1, 0, sizeof out).outcome == WURAKETOZO_STORED);
    CHECK(offered(PLAN + 1, 0, 1, 0, sizeof out).refusal == 29);
    for (size_t held = 1; held < WURAKETOZO_FRAGMENT_LIMIT; held++)
        CHECK(offered(1, 2 * held, 1, 0, sizeof out).outcome == WURAKETOZO_STORED);
    CHECK(offered(1, 2 * WURAKETOZO_FRAGMENT_LIMIT, 1, 0, sizeof out).refusal == 30);
}

/* ---- plans ---- */

/* Numbers that are no plan; some are one in their last byte or their last four. */
static const uint64_t no_plans[] = {0,           WURAKETOZO_ASSEMBLY_LIMIT + 1, 10, 16, 256, 257, 0x100000000,
                                    0x100000001, 0x8000000000000004,            UINT64_MAX};
enum { NO_PLANS = sizeof no_plans / sizeof no_plans[0] };

/* Three clients with plans of one, eight and two; their shares stand at these places of the store. */
enum { THREE = 3, PLANS = 1 + 8 + 2 };
static const uint64_t three_plans[THREE] = {1, 8, 2};
static const size_t share_at[THREE] = {0, WURAKETOZO_SHARE(1), WURAKETOZO_SHARE(1 + 8)};
static wuraketozo_client three[THREE], three_before[THREE];
static uint8_t three_store[WURAKETOZO_SHARE(PLANS)], store_before[WURAKETOZO_SHARE(PLANS)];

static wuraketozo_answer offered_to(size_t k, uint32_t identification, const char *text)
{
    wuraketozo_fragment f = fragment(0, 0);
    f.identification = identification;
    return wuraketozo_offer(three, THREE, three_store, sizeof three_store, k, f, (const uint8_t *)text, strlen(text), out, sizeof out);
}

/* Whether every call on the three clients is refused with this number and changes nothing. Only a fragment meets the table. */
static int all_refused(uint32_t refusal, size_t length)
{
    int so = 1;
    memcpy(three_before, three, sizeof three);
    memcpy(store_before, three_store, sizeof three_store);
    memset(out, 0xee, sizeof out);
    so &= wuraketozo_reset(three, THREE, three_store, length).refusal == refusal;
    for (size_t k = 0; k <= THREE; k++) {
        so &= wuraketozo_offer(three, THREE, three_store, length, k, fragment(0, 1), piece, 2, out, sizeof out).refusal == refusal;
        so &= wuraketozo_offer(three, THREE, three_store, length, k, fragment(0, 1), NULL, 0, NULL, 0).refusal == refusal;
        so &= wuraketozo_advance(three, THREE, three_store, length, k, 9).refusal == refusal;
        so &= wuraketozo_account(three, THREE, three_store, length, k).refusal == refusal;
        wuraketozo_received got = wuraketozo_receive(three, THREE, three_store, length, k, 9, here, there, WURAKETOZO_PLAIN, piece,
                                                     sizeof piece, out, sizeof out);
        so &= got.what == WURAKETOZO_FRAGMENT && got.answer.refusal == refusal && got.answer.outcome == WURAKETOZO_REFUSED;
        got = wuraketozo_receive(three, THREE, three_store, length, k, 9, here, there, WURAKETOZO_PLAIN, apc_right, sizeof apc_right,
                                 out, sizeof out);
        so &= got.what == WURAKETOZO_DATAGRAM && got.reading.refusal == 0;
    }
    so &= memcmp(three_before, three, sizeof three) == 0 && memcmp(store_before, three_store, sizeof three_store) == 0;
    for (size_t i = 0; i < sizeof out; i++)
        so &= out[i] == 0xee;
    return so;
}

/* The helper makes fresh records or writes nothing. */
static void records_with_plans(void)
{
    uint64_t plans[MOST_RECORDS];
    for (size_t i = 0; i < MOST_RECORDS; i++)
        plans[i] = 1 + i % WURAKETOZO_ASSEMBLY_LIMIT;
    for (size_t count = 1; count <= WURAKETOZO_CLIENT_LIMIT; count++) {
        size_t length = 0;
        memset(many, 0xee, sizeof many);
        memset(kept, 0, sizeof kept);
        for (size_t i = 0; i < count; i++) {
            kept[i].plan = plans[i];
            length += wuraketozo_share_size(plans[i]);
        }
        CHECK(wuraketozo_plan(many, plans, count) == length);
        CHECK(memcmp(many, kept, count * sizeof many[0]) == 0 && many[count].plan == 0xeeeeeeeeeeeeeeee);
        /* the library makes the same of records that hold anything else */
        memset(many, 0xee, sizeof many);
        for (size_t i = 0; i < count; i++)
            many[i].plan = plans[i];
        CHECK(wuraketozo_reset(many, count, long_store, length).outcome == WURAKETOZO_RESET);
        CHECK(memcmp(many, kept, count * sizeof many[0]) == 0 && many[count].plan == 0xeeeeeeeeeeeeeeee);
    }
    memset(many, 0xee, sizeof many);
    memset(kept, 0xee, sizeof kept);
    CHECK(wuraketozo_plan(many, plans, 0) == 0 && wuraketozo_plan(many, plans, MOST_RECORDS) == 0);
    CHECK(wuraketozo_plan(many, plans, SIZE_MAX) == 0 && wuraketozo_plan(NULL, NULL, 0) == 0);
    for (size_t i = 0; i < WURAKETOZO_CLIENT_LIMIT; i++) {
        const uint64_t plan = plans[i];
        for (size_t none_at = 0; none_at < NO_PLANS; none_at++) {
            plans[i] = no_plans[none_at];
            CHECK(wuraketozo_plan(many, plans, WURAKETOZO_CLIENT_LIMIT) == 0 && wuraketozo_plan(many, plans, i + 1) == 0);
        }
        plans[i] = plan;
    }
    CHECK(memcmp(many, kept, sizeof many) == 0);
}

/* Which plans are taken, and in which order a table is refused. */
static void plans_refused(void)
{
    for (uint64_t plan = 1; plan <= WURAKETOZO_ASSEMBLY_LIMIT; plan++)
        CHECK(wuraketozo_share_size(plan) == WURAKETOZO_SHARE(plan));
    for (size_t i = 0; i < NO_PLANS; i++)
        CHECK(wuraketozo_share_size(no_plans[i]) == 0);

    /* records of zeros */
    memset(three, 0, sizeof three);
    CHECK(all_refused(32, 0) && all_refused(32, sizeof three_store));

    /* one plan that is none, this client's or another's; before the store's length, and behind the number of records */
    for (size_t k = 0; k < THREE; k++) {
        for (size_t i = 0; i < NO_PLANS; i++) {
            CHECK(wuraketozo_plan(three, three_plans, THREE) == sizeof three_store);
            three[k].plan = no_plans[i];
            CHECK(all_refused(32, sizeof three_store) && all_refused(32, sizeof three_store - 1) && all_refused(32, 0));
            CHECK(all_refused(32, sizeof three_store - WURAKETOZO_SHARE(three_plans[k])));
        }
    }
    for (size_t i = 0; i < MOST_RECORDS; i++)
        many[i].plan = WURAKETOZO_ASSEMBLY_LIMIT + 1;
    CHECK(wuraketozo_reset(many, MOST_RECORDS, long_store, sizeof long_store).refusal == 20);
    CHECK(wuraketozo_account(many, MOST_RECORDS, long_store, sizeof long_store, 0).refusal == 20);
    CHECK(wuraketozo_reset(many, WURAKETOZO_CLIENT_LIMIT, long_store, 0).refusal == 32);
    CHECK(wuraketozo_account(many, 1, long_store, 5, 0).refusal == 32);

    /* the store's length is the sum, and no other */
    CHECK(wuraketozo_plan(three, three_plans, THREE) == sizeof three_store);
    CHECK(all_refused(20, sizeof three_store - 1) && all_refused(20, 0) && all_refused(20, WURAKETOZO_SHARE(THREE)));
    CHECK(all_refused(20, WURAKETOZO_SHARE(PLANS - 1)));
    CHECK(wuraketozo_reset(three, THREE, long_store, sizeof three_store + 1).refusal == 20);
    CHECK(wuraketozo_reset(three, THREE, long_store, WURAKETOZO_SHARE(THREE * WURAKETOZO_ASSEMBLY_LIMIT)).refusal == 20);
    CHECK(wuraketozo_reset(three, THREE, three_store, sizeof three_store).refusal == 0);
}

/* Each client has as many places as its plan says, and its share is where the header says. */
static void places_of_plans(void)
{
    memset(three_store, 0xee, sizeof three_store);
    CHECK(wuraketozo_plan(three, three_plans, THREE) == sizeof three_store);
    CHECK(wuraketozo_reset(three, THREE, three_store, sizeof three_store).outcome == WURAKETOZO_RESET);
    memset(store_before, 0xee, sizeof store_before);
    for (size_t k = 0; k < THREE; k++) {
        for (uint32_t id = 1; id <= three_plans[k]; id++) {
            const char text[] = {(char)('a' + k), (char)('0' + id), 0};
            CHECK(offered_to(k, id, text).outcome == WURAKETOZO_STORED);
            memcpy(store_before + share_at[k] + WURAKETOZO_SHARE(id - 1), text, 2);
            CHECK(memcmp(store_before, three_store, sizeof three_store) == 0);
        }
        CHECK(offered_to(k, 99, "no").refusal == 29);
        CHECK(memcmp(store_before, three_store, sizeof three_store) == 0);
    }
    for (size_t k = 0; k < THREE; k++) {
        const wuraketozo_figures f = wuraketozo_account(three, THREE, three_store, sizeof three_store, k).figures;
        CHECK(three[k].plan == three_plans[k]);
        CHECK(f.held == 2 * three_plans[k] && f.rejected == 2 && f.offered == f.held + f.rejected);
    }
    /* an assembly at or past the plan: the client's own calls are refused with 22, the others' are not */
    for (uint64_t place = 2; place < WURAKETOZO_ASSEMBLY_LIMIT; place++) {
        memcpy(three_before, three, sizeof three);
        three[2].assemblies[place] = three[2].assemblies[1];
        memset(&three[2].assemblies[1], 0, sizeof three[2].assemblies[1]);
        CHECK(wuraketozo_account(three, THREE, three_store, sizeof three_store, 2).refusal == 22);
        CHECK(wuraketozo_account(three, THREE, three_store, sizeof three_store, 1).refusal == 0);
        memcpy(three, three_before, sizeof three);
    }
    CHECK(wuraketozo_account(three, THREE, three_store, sizeof three_store, 2).refusal == 0);
    /* a set-up keeps the plans and makes all else fresh */
    CHECK(wuraketozo_plan(three_before, three_plans, THREE) == sizeof three_store);
    CHECK(wuraketozo_reset(three, THREE, three_store, sizeof three_store).outcome == WURAKETOZO_RESET);
    CHECK(memcmp(three_before, three, sizeof three) == 0 && memcmp(store_before, three_store, sizeof three_store) == 0);
}

/* ---- NULL with length 0 ---- */

/* With each of the pointers NULL that has length 0, a call answers what it answers with a pointer, and leaves the same. */
static void nothing_at_all(void)
{
    uint8_t some[16], buffer[16], left[16];
    memset(some, 0xee, sizeof some);
    memset(buffer, 0xee, sizeof buffer);
    memset(left, 0xee, sizeof left);
    const uint8_t list[] = {0};
    const wuraketozo_extent whole = {0, 0};
    const wuraketozo_original_extent whole_original = {0, 0};

    for (uint32_t strictness = WURAKETOZO_PLAIN; strictness <= WURAKETOZO_STRICT; strictness++) {
        CHECK(same_reading(wuraketozo_read(NULL, 0, here, there, strictness), wuraketozo_read(some, 0, here, there, strictness)));
        CHECK(wuraketozo_read(NULL, 0, here, there, strictness).refusal == 1);
        CHECK(same_rereading(wuraketozo_reread(NULL, 0, 0, strictness), wuraketozo_reread(some, 0, 0, strictness)));
        CHECK(wuraketozo_reread(NULL, 0, 0, strictness).refusal == 0);
        CHECK(wuraketozo_reread(NULL, 0, 0, strictness).verdict == WURAKETOZO_NONE);
        CHECK(same_rereading(wuraketozo_reread(NULL, 0, 1, strictness), wuraketozo_reread(some, 0, 1, strictness)));
    }

    for (uint32_t verdict = WURAKETOZO_NONE; verdict <= WURAKETOZO_PADDED; verdict++) {
        CHECK(same_listing(wuraketozo_list(NULL, 0, verdict, whole, buffer, sizeof buffer),
                           wuraketozo_list(some, 0, verdict, whole, left, sizeof left)));
        CHECK(memcmp(buffer, left, sizeof left) == 0);
        CHECK(same_listing(wuraketozo_list(NULL, 0, verdict, whole, NULL, 0), wuraketozo_list(some, 0, verdict, whole, left, 0)));
        CHECK(same_listing(wuraketozo_relist(NULL, 0, verdict, whole_original, buffer, sizeof buffer),
                           wuraketozo_relist(some, 0, verdict, whole_original, left, sizeof left)));
        CHECK(memcmp(buffer, left, sizeof left) == 0);
        CHECK(same_listing(wuraketozo_relist(NULL, 0, verdict, whole_original, NULL, 0),
                           wuraketozo_relist(some, 0, verdict, whole_original, left, 0)));
    }
    for (uint32_t verdict = WURAKETOZO_NONE; verdict <= WURAKETOZO_PADDED; verdict++) {
        for (size_t from = 0; from < 3; from++) {
            for (size_t to = 0; to < 3; to++) {
                CHECK(same_option(next_in(NULL, 0, verdict, from, to), next_in(some, 0, verdict, from, to)));
                CHECK(next_in(NULL, 0, verdict, from, to).found == 0);
                CHECK(same_original_option(renext_in(NULL, 0, verdict, from, to), renext_in(some, 0, verdict, from, to)));
                CHECK(renext_in(NULL, 0, verdict, from, to).found == 0);
            }
        }
    }
    CHECK(wuraketozo_list(NULL, 0, WURAKETOZO_READ, whole, buffer, sizeof buffer).size == 1 && buffer[0] == 0);
    CHECK(wuraketozo_list(NULL, 0, WURAKETOZO_READ, whole, NULL, 0).refusal == 8);

    CHECK(same_written(wuraketozo_write(here, there, 1, 2, NULL, 0, list, 1, 0, buffer, sizeof buffer),
                       wuraketozo_write(here, there, 1, 2, some, 0, list, 1, 0, left, sizeof left)));
    CHECK(memcmp(buffer, left, sizeof left) == 0);
    CHECK(wuraketozo_write(here, there, 1, 2, NULL, 0, list, 1, 0, buffer, sizeof buffer).size == 10);
    CHECK(wuraketozo_write(here, there, 1, 2, NULL, 0, NULL, 0, 0, buffer, sizeof buffer).refusal == 7);
    CHECK(wuraketozo_write(here, there, 1, 2, NULL, 0, list, 1, 0, NULL, 0).refusal == 8);
    CHECK(wuraketozo_write(here, there, 1, 2, NULL, 0, NULL, 0, 255, NULL, 0).refusal == 7);
    CHECK(memcmp(buffer, left, sizeof left) == 0);

    /* the table: bit 0 of `way` leaves out the records, bit 1 the store, bit 2 what is read, bit 3 out */
    for (unsigned way = 0; way < 16; way++) {
        wuraketozo_client with_null[1], without[1];
        uint8_t dummy = 0;
        size_t count = way & 1 ? 0 : 1, size = way & 2 ? 0 : sizeof store;
        size_t length = way & 4 ? 0 : sizeof piece, room = way & 8 ? 0 : sizeof out;
        wuraketozo_client *r = count ? with_null : NULL;
        uint8_t *s = size ? store : NULL, *s2 = size ? store : &dummy, *o = room ? out : NULL, *o2 = room ? out : &dummy;
        const uint8_t *b = length ? piece : NULL, *b2 = length ? piece : &dummy;
        memset(with_null, 0, sizeof with_null);
        memset(without, 0, sizeof without);
        with_null[0].plan = without[0].plan = PLAN;
        CHECK(same_answer(wuraketozo_reset(r, count, s, size), wuraketozo_reset(without, count, s2, size)));
        CHECK(same_answer(wuraketozo_offer(r, count, s, size, 0, fragment(0, 0), b, length, o, room),
                          wuraketozo_offer(without, count, s2, size, 0, fragment(0, 0), b2, length, o2, room)));
        CHECK(same_received(wuraketozo_receive(r, count, s, size, 0, 0, here, there, WURAKETOZO_STRICT, b, length, o, room),
                            wuraketozo_receive(without, count, s2, size, 0, 0, here, there, WURAKETOZO_STRICT, b2, length, o2, room)));
        CHECK(same_answer(wuraketozo_account(r, count, s, size, 0), wuraketozo_account(without, count, s2, size, 0)));
        CHECK(same_answer(wuraketozo_advance(r, count, s, size, 0, 9), wuraketozo_advance(without, count, s2, size, 0, 9)));
        CHECK(memcmp(with_null, without, sizeof without) == 0 && dummy == 0);
        if (way & 3)
            CHECK(wuraketozo_account(r, count, s, size, 0).refusal == 20);
        else if (way != 0)
            CHECK(wuraketozo_offer(r, count, s, size, 0, fragment(0, 0), b, length, o, room).refusal == (way & 8 ? 23u : 24u));
    }
}

int main(void)
{
    fill_crowded();
    verdicts_and_apc();
    fault_offsets();
    one_by_one();
    outcomes();
    limits();
    records_with_plans();
    plans_refused();
    places_of_plans();
    nothing_at_all();
    printf("%u checks, %u failed\n", checks, failures);
    return failures == 0 ? EXIT_SUCCESS : EXIT_FAILURE;
}

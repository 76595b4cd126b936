/* A host that receives for three clients: a gauge at a weir, a data logger that has lost its way, and a weather mast. Each has its plan:
 * two originals may be under way at once for the gauge, eight for the logger and one for the mast.
 *
 *     gcc -std=c11 -Wall -Wextra -Werror -Iinclude examples/host.c target/staticlib/libhost_calls.a -o target/host-example
 *
 * The logger sends the first fragment of one message after another and never the rest. It fills its own eight places again and
 * again; the gauge and the mast get their messages as if it were not there. The mast starts on a report while another is under way,
 * which its plan does not allow. Options and faults are shown with their offsets from the UDP header, so that they can be looked up in
 * a packet trace. What this prints stands in examples/host.expected.
 */
#include <inttypes.h>
#include <stdio.h>
#include <stdlib.h>
#include <string.h>

#include "wuraketozo.h"

enum { GAUGE = 0, LOGGER = 1, MAST = 2, CLIENTS = 3 };

static const char *const client_names[CLIENTS] = {"gauge", "logger", "mast"};
static const uint64_t plans[CLIENTS] = {2, 8, 1};

static const wuraketozo_address gauge_address = {{192, 0, 2, 1}};
static const wuraketozo_address logger_address = {{192, 0, 2, 5}};
static const wuraketozo_address mast_address = {{192, 0, 2, 9}};
static const wuraketozo_address host_address = {{198, 51, 100, 7}};

/* ---- what arrives: UDP payloads as captured ---- */

/* A report of its own. */
static const uint8_t level[] = {
    0x12, 0x34, 0x14, 0xb4, /* ports 4660 and 5300 */
    0x00, 0x14, 0xd3, 0xf7, /* UDP length 20, checksum */
    'l', 'e', 'v', 'e', 'l', ' ', '4', '1', '2', ' ', 'c', 'm',
    0xa8, 0xd9,                         /* option checksum */
    0x02, 0x06, 0x55, 0xb7, 0xf8, 0x28, /* APC: CRC32c of the user data */
    0x06, 0x06, 0x00, 0x00, 0x01, 0x2c, /* REQ, token 300 */
};

/* The same with a bit of the token turned over: the option checksum is wrong, the user data is not. */
static const uint8_t level_bad_option[] = {
    0x12, 0x34, 0x14, 0xb4, 0x00, 0x14, 0xd3, 0xf7, 'l',  'e',  'v',  'e',  'l',  ' ',  '4',  '1',  '2',
    ' ',  'c',  'm',  0xa8, 0xd9, 0x02, 0x06, 0x55, 0xb7, 0xf8, 0x28, 0x06, 0x06, 0x00, 0x00, 0x01, 0x2d,
};

/* The same with a bit of the user data turned over: the UDP checksum is wrong. */
static const uint8_t level_bad_data[] = {
    0x12, 0x34, 0x14, 0xb4, 0x00, 0x14, 0xd3, 0xf7, 'l',  'e',  'w',  'e',  'l',  ' ',  '4',  '1',  '2',
    ' ',  'c',  'm',  0xa8, 0xd9, 0x02, 0x06, 0x55, 0xb7, 0xf8, 0x28, 0x06, 0x06, 0x00, 0x00, 0x01, 0x2c,
};

/* Padded with eight NOPs before its option. */
static const uint8_t level_padded[] = {
    0x12, 0x34, 0x14, 0xb4, 0x00, 0x14, 0xd3, 0xf7, /* UDP header */
    'l', 'e', 'v', 'e', 'l', ' ', '4', '1', '2', ' ', 'c', 'm',
    0xf4, 0xb9,                                     /* option checksum */
    0x01, 0x01, 0x01, 0x01, 0x01, 0x01, 0x01, 0x01, /* NOPs */
    0x06, 0x06, 0x00, 0x00, 0x01, 0x2c,             /* REQ, token 300 */
};

/* The same token behind NOPs again, with a last option that is cut short. No checksums, which IPv4 allows. */
static const uint8_t level_cut_option[] = {
    0x12, 0x34, 0x14, 0xb4, 0x00, 0x14, 0x00, 0x00, /* UDP header */
    'l', 'e', 'v', 'e', 'l', ' ', '4', '1', '2', ' ', 'c', 'm',
    0x00, 0x00,                         /* no option checksum */
    0x01, 0x01,                         /* NOPs */
    0x06, 0x06, 0x00, 0x00, 0x01, 0x2c, /* REQ, token 300 */
    0x08, 0x0a, 0x00, 0x00, 0x00, 0x01, /* TIME, 10 bytes; four of them are missing */
};

/* A long report in three fragments: 68 bytes of user data, then its own options, 82 bytes in all. */
static const uint8_t weir_first[] = {
    0x12, 0x34, 0x14, 0xb4, 0x00, 0x08, 0xec, 0xb9, /* UDP length 8: no user data of its own */
    0xe1, 0x42,                                     /* option checksum */
    0x03, 0x0a, 0x00, 0x14,                         /* FRAG, 10 bytes; the fragment starts at 20 */
    0x00, 0x00, 0x00, 0x07, 0x00, 0x08,             /* identification 7, offset 8: place 0 */
    'w', 'e', 'i', 'r', ' ', '7', ':', ' ', 'l', 'e', 'v', 'e', 'l', ' ', '4', '1', '2', ' ', 'c', 'm', ',', ' ',
    'f', 'l', 'o', 'w', ' ', '3', '8', ' ', 'm', '3',
};
static const uint8_t weir_middle[] = {
    0x12, 0x34, 0x14, 0xb4, 0x00, 0x08, 0xec, 0xb9, /* UDP header */
    0x03, 0x23,                                     /* option checksum */
    0x03, 0x0a, 0x00, 0x14,                         /* FRAG, 10 bytes; the fragment starts at 20 */
    0x00, 0x00, 0x00, 0x07, 0x00, 0x28,             /* identification 7, offset 40: place 32 */
    '/', 's', ',', ' ', 'g', 'a', 't', 'e', ' ', '2', ' ', 'o', 'p', 'e', 'n', ',', ' ', 'b', 'a', 't', 't', 'e',
    'r', 'y', ' ', '8', '7', ' ', 'p', 'e', 'r', 'c',
};
static const uint8_t weir_last[] = {
    0x12, 0x34, 0x14, 0xb4, 0x00, 0x08, 0xec, 0xb9, /* UDP header */
    0x22, 0x94,                                     /* option checksum */
    0x03, 0x0c, 0x00, 0x16,                         /* FRAG, 12 bytes: the last one; the fragment starts at 22 */
    0x00, 0x00, 0x00, 0x07, 0x00, 0x48,             /* identification 7, offset 72: place 64 */
    0x00, 0x4c,                                     /* the original's options start at 76: place 68 */
    'e', 'n', 't', '.',                             /* the last of the user data */
    0x7b, 0x8d,                                     /* the original's option checksum */
    0x02, 0x06, 0x2c, 0x9d, 0x4e, 0x8e,             /* its APC: CRC32c of the 68 bytes */
    0x06, 0x06, 0x00, 0x00, 0x01, 0x2d,             /* its REQ, token 301 */
};

/* A fragment of a next report, and one that overlaps it by two bytes and says something else. */
static const uint8_t next_first[] = {
    0x12, 0x34, 0x14, 0xb4, 0x00, 0x08, 0xec, 0xb9, /* UDP header */
    0xe1, 0x41,                                     /* option checksum */
    0x03, 0x0a, 0x00, 0x14,                         /* FRAG, 10 bytes; the fragment starts at 20 */
    0x00, 0x00, 0x00, 0x08, 0x00, 0x08,             /* identification 8, offset 8: place 0 */
    'w', 'e', 'i', 'r', ' ', '7', ':', ' ', 'l', 'e', 'v', 'e', 'l', ' ', '4', '1', '2', ' ', 'c', 'm', ',', ' ',
    'f', 'l', 'o', 'w', ' ', '3', '8', ' ', 'm', '3',
};
static const uint8_t next_overlap[] = {
    0x12, 0x34, 0x14, 0xb4, 0x00, 0x08, 0xec, 0xb9, /* UDP header */
    0x7e, 0x25,                                     /* option checksum */
    0x03, 0x0a, 0x00, 0x14,                         /* FRAG, 10 bytes; the fragment starts at 20 */
    0x00, 0x00, 0x00, 0x08, 0x00, 0x26,             /* identification 8, offset 38: place 30 */
    '?', '?', '?', '?',
};

/* The mast's report in two fragments: 51 bytes of user data and no options. */
static const uint8_t mast_first[] = {
    0x12, 0x35, 0x14, 0xb4, 0x00, 0x08, 0xec, 0xb0, /* ports 4661 and 5300, UDP length 8, checksum */
    0xd4, 0x34,                                     /* option checksum */
    0x03, 0x0a, 0x00, 0x14,                         /* FRAG, 10 bytes; the fragment starts at 20 */
    0x00, 0x00, 0x00, 0x09, 0x00, 0x08,             /* identification 9, offset 8: place 0 */
    'm', 'a', 's', 't', ' ', '3', ':', ' ', 'w', 'i', 'n', 'd', ' ', '1', '1', ' ', 'm', '/', 's', ' ', 'f', 'r',
    'o', 'm',
};
static const uint8_t mast_last[] = {
    0x12, 0x35, 0x14, 0xb4, 0x00, 0x08, 0xec, 0xb0, /* UDP header */
    0x18, 0xcb,                                     /* option checksum */
    0x03, 0x0c, 0x00, 0x16,                         /* FRAG, 12 bytes: the last one; the fragment starts at 22 */
    0x00, 0x00, 0x00, 0x09, 0x00, 0x20,             /* identification 9, offset 32: place 24 */
    0x00, 0x3b,                                     /* options would start at 59: place 51, its end */
    ' ', '2', '4', '0', ',', ' ', 'g', 'u', 's', 't', 's', ' ', '1', '7', ',', ' ', 'r', 'a', 'i', 'n', ' ', '0',
    '.', '4', ' ', 'm', 'm',
};

/* The first fragment of the mast's next report. */
static const uint8_t mast_next[] = {
    0x12, 0x35, 0x14, 0xb4, 0x00, 0x08, 0xec, 0xb0, /* UDP header */
    0xd4, 0x33,                                     /* option checksum */
    0x03, 0x0a, 0x00, 0x14,                         /* FRAG, 10 bytes; the fragment starts at 20 */
    0x00, 0x00, 0x00, 0x0a, 0x00, 0x08,             /* identification 10, offset 8: place 0 */
    'm', 'a', 's', 't', ' ', '3', ':', ' ', 'w', 'i', 'n', 'd', ' ', '1', '1', ' ', 'm', '/', 's', ' ', 'f', 'r',
    'o', 'm',
};

/* What the logger sends, each time with another identification. It sets no checksum, which IPv4 allows. */
static const uint8_t logger_first[] = {
    0x12, 0x36, 0x14, 0xb4, 0x00, 0x08, 0x00, 0x00, /* ports 4662 and 5300, UDP length 8, no checksum */
    0x00, 0x00,                                     /* no option checksum */
    0x03, 0x0a, 0x00, 0x14,                         /* FRAG, 10 bytes; the fragment starts at 20 */
    0x00, 0x00, 0x00, 0x00, 0x00, 0x08,             /* identification, set below; offset 8: place 0 */
    'r', 'e', 's', 't', 'a', 'r', 't', '\n',
};
enum { IDENTIFICATION_AT = 14 };

/* ---- the host ---- */

static wuraketozo_client records[CLIENTS];
static uint8_t *store;
static size_t store_length;
static uint8_t *out;
static size_t out_length;

/* How NOPs are read; a host may choose anew for each datagram. */
static uint32_t strictness = WURAKETOZO_PLAIN;

static const char *verdict_word(uint32_t verdict)
{
    static const char *const words[] = {"none",   "short",    "pad",     "unsummed", "badsum", "malformed",
                                        "unsafe", "fragdata", "crowded", "read",     "piece",  "tail",
                                        "padded"};
    return verdict < sizeof words / sizeof words[0] ? words[verdict] : "?";
}

/* Shows what was read: the user data, the verdict, where a fault was met, and the options as an encoded list in hex. */
static void show(const uint8_t *user, size_t user_length, uint32_t verdict, size_t fault_at, uint32_t apc, const uint8_t *list,
                 wuraketozo_listing listing)
{
    printf("\"%.*s\", verdict %s", (int)user_length, (const char *)user, verdict_word(verdict));
    if (fault_at != 0)
        printf(" at %zu", fault_at);
    if (verdict == WURAKETOZO_READ && listing.refusal == 0) {
        printf(", options ");
        for (size_t i = 0; i < listing.size; i++)
            printf("%02x", list[i]);
        if (apc != WURAKETOZO_APC_NONE)
            printf(", APC %s", apc == WURAKETOZO_APC_RIGHT ? "right" : "wrong");
    }
    printf("\n");
}

/* Shows an option: its kind, its fields or body in hex, and where it stands. */
static void show_option(uint32_t kind, const uint8_t *body, size_t length, size_t offset)
{
    printf("                   kind %" PRIu32 "%s", kind, length > 0 ? " " : "");
    for (size_t i = 0; i < length; i++)
        printf("%02x", body[i]);
    printf(" at %zu\n", offset);
}

static void show_reading(const uint8_t *payload, size_t length, const wuraketozo_reading *r)
{
    uint8_t list[128];
    wuraketozo_listing listing = wuraketozo_list(payload, length, r->verdict, r->options, list, sizeof list);
    wuraketozo_extent rest = r->options;
    wuraketozo_option option;
    show(payload + r->user.from, r->user.to - r->user.from, r->verdict, r->fault_at, r->apc, list, listing);
    while ((option = wuraketozo_next(payload, length, r->verdict, rest)).found) {
        show_option(option.kind, payload + option.body.from, option.body.to - option.body.from, option.offset);
        rest.from = option.body.to;
    }
}

/* The same of an original: what is in it has places, and an offset is 8 plus the place. */
static void show_rereading(const uint8_t *original, size_t length, const wuraketozo_rereading *r)
{
    uint8_t list[128];
    wuraketozo_listing listing = wuraketozo_relist(original, length, r->verdict, r->options, list, sizeof list);
    wuraketozo_original_extent rest = r->options;
    wuraketozo_original_option option;
    show(original + r->user.from, r->user.to - r->user.from, r->verdict, r->fault_at, r->apc, list, listing);
    while ((option = wuraketozo_renext(original, length, r->verdict, rest)).found) {
        show_option(option.kind, original + option.body.from, option.body.to - option.body.from, option.offset);
        rest.from = option.body.to;
    }
}

/* Shows what came of a fragment; a whole original is read again. */
static void show_answer(const wuraketozo_answer *answer)
{
    wuraketozo_rereading rereading;
    switch (answer->outcome) {
    case WURAKETOZO_STORED:
        printf("fragment stored\n");
        return;
    case WURAKETOZO_REPEATED:
        printf("fragment repeated\n");
        return;
    case WURAKETOZO_CONFLICT:
        printf("fragment in conflict, its original dropped\n");
        return;
    case WURAKETOZO_DELIVERED:
        rereading = wuraketozo_reread(out, answer->length, answer->option_start, strictness);
        if (rereading.refusal != 0) {
            printf("original refused %" PRIu32 "\n", rereading.refusal);
            return;
        }
        printf("delivered %zu bytes: ", answer->length);
        show_rereading(out, answer->length, &rereading);
        return;
    default:
        printf("fragment refused %" PRIu32 "\n", answer->refusal);
    }
}

/* Hands a datagram that arrived for a client to the library. */
static wuraketozo_received receive(size_t client, uint64_t time, wuraketozo_address source, const uint8_t *payload, size_t length)
{
    return wuraketozo_receive(records, CLIENTS, store, store_length, client, time, source, host_address, strictness, payload, length,
                              out, out_length);
}

static void receive_and_show(size_t client, uint64_t time, wuraketozo_address source, const uint8_t *payload, size_t length)
{
    wuraketozo_received received = receive(client, time, source, payload, length);
    printf("%6" PRIu64 " ms  %-6s  ", time, client_names[client]);
    switch (received.what) {
    case WURAKETOZO_DATAGRAM:
        show_reading(payload, length, &received.reading);
        return;
    case WURAKETOZO_FRAGMENT:
        show_answer(&received.answer);
        return;
    default:
        printf("refused %" PRIu32 "\n", received.reading.refusal);
    }
}

/* The logger sends `count` first fragments; says how many were stored and how many turned away. */
static void logger_loops(uint64_t time, unsigned count)
{
    static uint8_t identification = 0;
    unsigned stored = 0, turned_away = 0;
    uint8_t payload[sizeof logger_first];
    memcpy(payload, logger_first, sizeof payload);
    for (unsigned i = 0; i < count; i++) {
        payload[IDENTIFICATION_AT + 3] = identification++;
        wuraketozo_received received = receive(LOGGER, time, logger_address, payload, sizeof payload);
        stored += received.answer.outcome == WURAKETOZO_STORED;
        turned_away += received.answer.refusal == 29;
    }
    printf("%6" PRIu64 " ms  %-6s  %u first fragments: %u stored, %u turned away (29)\n", time, client_names[LOGGER], count, stored,
           turned_away);
}

static void show_accounts(void)
{
    printf("client     offered       held  delivered    expired conflicted   repeated   rejected\n");
    for (size_t k = 0; k < CLIENTS; k++) {
        wuraketozo_answer answer = wuraketozo_account(records, CLIENTS, store, store_length, k);
        wuraketozo_figures f = answer.figures;
        if (answer.refusal != 0) {
            printf("%-6s  refused %" PRIu32 "\n", client_names[k], answer.refusal);
            continue;
        }
        const uint64_t columns[] = {f.offered, f.held, f.delivered, f.expired, f.conflicted, f.repeated, f.rejected};
        printf("%-7s", client_names[k]);
        for (size_t i = 0; i < sizeof columns / sizeof columns[0]; i++)
            printf(" %10" PRIu64, columns[i]);
        printf("\n");
    }
}

#define RECEIVE(client, time, source, payload) receive_and_show(client, time, source, payload, sizeof(payload))

/* Makes the table: a record with its plan for each client, a store for all of them, and the buffer that originals are handed out in. */
static int set_up(void)
{
    store_length = wuraketozo_plan(records, plans, CLIENTS);
    out_length = wuraketozo_out_size();
    store = calloc(store_length, 1);
    out = malloc(out_length);
    return wuraketozo_record_size() == sizeof records[0] && store_length != 0 && store != NULL && out != NULL &&
           wuraketozo_reset(records, CLIENTS, store, store_length).outcome == WURAKETOZO_RESET;
}

static void show_plans(void)
{
    printf("-- plans:");
    for (size_t k = 0; k < CLIENTS; k++)
        printf(" %s %" PRIu64 ",", client_names[k], plans[k]);
    printf(" in a store of %zu bytes\n", store_length);
}

int main(void)
{
    if (!set_up())
        return EXIT_FAILURE;
    show_plans();

    printf("-- datagrams of their own\n");
    RECEIVE(GAUGE, 0, gauge_address, level);
    RECEIVE(GAUGE, 10, gauge_address, level_bad_option);
    RECEIVE(GAUGE, 20, gauge_address, level_bad_data);

    printf("-- one padded with NOPs, read plainly and then strictly\n");
    RECEIVE(GAUGE, 100, gauge_address, level_padded);
    strictness = WURAKETOZO_STRICT;
    RECEIVE(GAUGE, 110, gauge_address, level_padded);
    strictness = WURAKETOZO_PLAIN;

    printf("-- one with an option that is cut short\n");
    RECEIVE(GAUGE, 200, gauge_address, level_cut_option);

    printf("-- a long report, its fragments out of order, one of them twice\n");
    RECEIVE(GAUGE, 1000, gauge_address, weir_last);
    RECEIVE(GAUGE, 1010, gauge_address, weir_first);
    RECEIVE(GAUGE, 1020, gauge_address, weir_first);
    RECEIVE(GAUGE, 1030, gauge_address, weir_middle);

    printf("-- two fragments that contradict each other\n");
    RECEIVE(GAUGE, 2000, gauge_address, next_first);
    RECEIVE(GAUGE, 2010, gauge_address, next_overlap);

    printf("-- the logger loops, and the mast reports: a second report has to wait for the first\n");
    logger_loops(3000, 10);
    RECEIVE(MAST, 3010, mast_address, mast_first);
    RECEIVE(MAST, 3015, mast_address, mast_next);
    logger_loops(3020, 50);
    logger_loops(123000, 10);
    RECEIVE(MAST, 123005, mast_address, mast_last);
    RECEIVE(MAST, 123006, mast_address, mast_next);
    RECEIVE(GAUGE, 123010, gauge_address, level);
    logger_loops(243000, 10);

    printf("-- the clock alone: what is 120,000 ms old goes\n");
    wuraketozo_advance(records, CLIENTS, store, store_length, LOGGER, 363000);
    show_accounts();
    free(store);
    free(out);
    return EXIT_SUCCESS;
}

/* Wuraketozo for C: the proved reader, writer and reassembly table as one static library (target/staticlib/libhost_calls.a, made by
 * `make library`).
 *
 * Numbers are those of the papers: a `refusal` is 0, or the number of the first test that applies. What a call answers and what it
 * leaves in every buffer and record is proved for every value of its arguments; docs/CLAIMS.md says where.
 *
 * What the pointers owe, and nothing else is asked:
 *  - a pointer with a length leads to that many bytes (or records) that can be read, and written where it is not const. With a length
 *    of 0 it may be anything, NULL too: nothing is read or written through it (tools/surface holds every call to that);
 *  - a pointer to records is aligned as C aligns a `wuraketozo_client` (8 bytes: malloc, a static array and a local one all are). A
 *    pointer to bytes may stand anywhere;
 *  - what one call may write overlaps with nothing else that the call is lent: not the records, the store, `out` or `buffer` with each
 *    other, and none of them with bytes that are read. What is proved is proved of buffers that are apart. Overlapping ones CAN CORRUPT
 *    MEMORY, also outside of them: a number that was tested may be another one when it is used. What is only read may overlap;
 *  - a record may hold any bytes: it has no padding, and each of its bytes counts. One that fails the record test is refused with 22, a
 *    table with a plan that is none with 32;
 *  - no other thread uses them during the call. The library keeps no state of its own.
 *
 * To have a table, give each client a plan: how many originals may be under way for it at once, 1 to 8. The plan stands in the client's
 * record, and with it how many bytes of the store are the client's. wuraketozo_plan puts the plans in and says how long the store has to
 * be:
 *
 *     static const uint64_t plans[] = {1, 8, 4};
 *     static wuraketozo_client records[3];
 *     size_t store_length = wuraketozo_plan(records, plans, 3);
 *     uint8_t *store = malloc(store_length);
 *     wuraketozo_reset(records, 3, store, store_length);
 *
 * A RECORD OF ZEROS HAS NO PLAN. With one in the table, whoever's it is, every call on the table is refused with 32, the set-up too.
 *
 * Positions are of two kinds that must not mix. An offset counts from a UDP header. Bytes of a payload are a `wuraketozo_extent` of
 * offsets; `fault_at` and, of an option, `offset` are offsets that stand alone. A place counts from the first user byte of an original
 * that was put together from fragments. Its bytes are a `wuraketozo_original_extent` of places; `place`, `option_start` and, of a held
 * fragment, `offset` are places that stand alone. No other position does. What is said of an original by an offset, `fault_at` or an
 * option's `offset`, counts from the UDP header that it would have had in one piece: it is 8 plus the place.
 */
#ifndef WURAKETOZO_H
#define WURAKETOZO_H

#include <stddef.h>
#include <stdint.h>

#ifdef __cplusplus
extern "C" {
#endif

/* An IPv4 address, first byte first. */
typedef struct {
    uint8_t octets[4];
} wuraketozo_address;

/* Bytes of a payload: `from` up to `to`, counted from its UDP header. */
typedef struct {
    size_t from;
    size_t to;
} wuraketozo_extent;

/* Bytes of an original: places `from` up to `to`, counted from its first user byte. */
typedef struct {
    size_t from;
    size_t to;
} wuraketozo_original_extent;

/* ---- reading ---- */

/* The verdict on what stands behind the user data (the surplus area). With every verdict but PIECE the user data is to be delivered. A
 * number stays what it is: new verdicts come at the end.
 *
 * Six of them are faults in the option list. They carry `fault_at`, the offset where the fault was met:
 *     MALFORMED  the kind byte of the faulty option; FRAG's own, if FRAG stands in a wrong place or has a bad field
 *     UNSAFE     the kind byte of the unsafe option
 *     FRAGDATA   FRAG's kind byte
 *     CROWDED    the 33rd option's kind byte
 *     TAIL       the first byte behind EOL that is not zero
 *     PADDED     the eighth NOP of the run
 * With every other verdict `fault_at` is 0. */
enum {
    WURAKETOZO_NONE = 0,
    WURAKETOZO_SHORT = 1,
    WURAKETOZO_PAD = 2,
    WURAKETOZO_UNSUMMED = 3,
    WURAKETOZO_BADSUM = 4,
    WURAKETOZO_MALFORMED = 5,
    WURAKETOZO_UNSAFE = 6,
    WURAKETOZO_FRAGDATA = 7,
    WURAKETOZO_CROWDED = 8,
    WURAKETOZO_READ = 9,
    WURAKETOZO_PIECE = 10,
    WURAKETOZO_TAIL = 11,  /* a byte behind EOL is not zero, up to the end or, in a fragment's list, up to its part */
    WURAKETOZO_PADDED = 12 /* in strict reading only: eight NOPs in a row. A datagram that a fragment's option leads is no fragment then */
};

/* How NOPs are read: `strictness`, which the host chooses for each call that reads. PLAIN (0) skips any number of them. With STRICT, or
 * any number but 0, the eighth NOP in a row gives PADDED: seven are fine, any other option starts the count again, and a fault that
 * stands in front of the eighth is met first. An answer of strict reading that is not PADDED is the answer of plain reading too.
 *
 * RFC 9868 (section 11.2) says that packets should not have more than seven NOPs in a row, and that a receiver which keeps meeting more
 * should log it as a possible attack. A host that wants to go by that reads strictly and logs PADDED. */
enum { WURAKETOZO_PLAIN = 0, WURAKETOZO_STRICT = 1 };

/* What the APC options say of the user data. */
enum { WURAKETOZO_APC_NONE = 0, WURAKETOZO_APC_RIGHT = 1, WURAKETOZO_APC_WRONG = 2 };

/* What a payload says. */
typedef struct {
    uint32_t refusal;          /* 0, or the reader's number; then every other field is 0 */
    uint32_t verdict;          /* WURAKETOZO_NONE .. WURAKETOZO_PADDED */
    wuraketozo_extent user;    /* the user data */
    wuraketozo_extent options; /* the option list with its fill, 0 and 0 unless the verdict is READ */
    size_t count;              /* options in it, NOP and EOL not counted */
    size_t fill;               /* zero bytes from EOL to the end */
    size_t fault_at;           /* with a fault in the option list the offset where it was met, else 0 */
    uint32_t apc;              /* WURAKETOZO_APC_NONE .. WURAKETOZO_APC_WRONG */
    uint32_t identification;   /* from here on: PIECE only, else 0 */
    size_t place;              /* where the fragment stands in the original */
    wuraketozo_extent part;    /* its bytes in this payload */
    size_t option_start;       /* of the last fragment: the place where the original's options start */
    uint32_t last;             /* 1 if it is the last one, else 0 */
} wuraketozo_reading;

/* Reads one IPv4 UDP payload. Refusals: 1 under 8 bytes, 2 over 65,515, 3 UDP length out of range, 4 UDP checksum wrong. */
wuraketozo_reading wuraketozo_read(const uint8_t *payload, size_t length, wuraketozo_address source, wuraketozo_address destination,
                                   uint32_t strictness);

/* What an original says. */
typedef struct {
    uint32_t refusal;                   /* 0, or the reader's number; then every other field is 0 */
    uint32_t verdict;                   /* WURAKETOZO_NONE .. WURAKETOZO_READ, TAIL or PADDED, and not UNSAFE: refusal 5 */
    wuraketozo_original_extent user;    /* the user data */
    wuraketozo_original_extent options; /* the option list with its fill, 0 and 0 unless the verdict is READ */
    size_t count;                       /* options in it, NOP and EOL not counted */
    size_t fill;                        /* zero bytes from EOL to the end */
    size_t fault_at;                    /* with a fault in the option list the offset where it was met, 8 plus the place; else 0 */
    uint32_t apc;                       /* WURAKETOZO_APC_NONE .. WURAKETOZO_APC_WRONG */
} wuraketozo_rereading;

/* Reads an original again that was put together from fragments. Refusals: 2 over 65,507 bytes, 6 option_start past the end, 5 an
 * unsafe option: nothing of it is to be delivered. With STRICT, one behind eight NOPs in a row is not met: that is PADDED. */
wuraketozo_rereading wuraketozo_reread(const uint8_t *original, size_t length, size_t option_start, uint32_t strictness);

/* ---- option lists ---- */

typedef struct {
    uint32_t refusal; /* 0, or 8: the buffer is too small, and stays as it was */
    size_t size;      /* bytes of the list */
    size_t fill;
} wuraketozo_listing;

/* Lists the options of a reading, plain or strict, as an encoded option list at the front of `buffer`. `verdict` and `options` are the
 * reading's, `payload` what was read. Any other values give a list without options. */
wuraketozo_listing wuraketozo_list(const uint8_t *payload, size_t length, uint32_t verdict, wuraketozo_extent options, uint8_t *buffer,
                                   size_t room);

/* The same of a rereading and its original. */
wuraketozo_listing wuraketozo_relist(const uint8_t *original, size_t length, uint32_t verdict, wuraketozo_original_extent options,
                                     uint8_t *buffer, size_t room);

/* An option of a payload, where it stands. */
typedef struct {
    uint32_t found;         /* 1, or 0 if there is no option (any more): then every other field is 0 */
    uint32_t kind;
    size_t offset;          /* its kind byte, counted from the UDP header */
    wuraketozo_extent body; /* its fields or body, up to the option's end */
} wuraketozo_option;

/* The first option in `rest`, which is a reading's `options` or what remains of it: the next one is in what stands behind `body.to`.
 *
 *     wuraketozo_extent rest = reading.options;
 *     wuraketozo_option option;
 *     while ((option = wuraketozo_next(payload, length, reading.verdict, rest)).found) { ..; rest.from = option.body.to; }
 *
 * gives the options of the listing in its order, each once. With other values: none, or what stands there if it has the form of an
 * option. */
wuraketozo_option wuraketozo_next(const uint8_t *payload, size_t length, uint32_t verdict, wuraketozo_extent rest);

/* An option of an original, where it stands. */
typedef struct {
    uint32_t found;                  /* 1, or 0 if there is no option (any more): then every other field is 0 */
    uint32_t kind;
    size_t offset;                   /* 8 plus the place of its kind byte */
    wuraketozo_original_extent body; /* its fields or body, as places */
} wuraketozo_original_option;

/* The same of a rereading and its original. */
wuraketozo_original_option wuraketozo_renext(const uint8_t *original, size_t length, uint32_t verdict, wuraketozo_original_extent rest);

/* ---- writing ---- */

typedef struct {
    uint32_t refusal; /* 0, or 7, 9, 8; then the buffer stays as it was */
    size_t size;      /* bytes of the payload */
} wuraketozo_written;

/* Writes a whole payload to the front of `buffer`: header, user data, and the options of an encoded option list with `fill` zero
 * bytes behind them. Refusals: 7 the list can't be read, 9 a kind that is not to be written, 8 too large. */
wuraketozo_written wuraketozo_write(wuraketozo_address source, wuraketozo_address destination, uint16_t source_port,
                                    uint16_t destination_port, const uint8_t *user, size_t user_length, const uint8_t *list,
                                    size_t list_length, uint8_t fill, uint8_t *buffer, size_t room);

/* ---- the table ---- */

/* The limits. The calls wuraketozo_client_limit, wuraketozo_out_size and wuraketozo_share_size below answer the same of the library. */
#define WURAKETOZO_CLIENT_LIMIT 12     /* clients of a table */
#define WURAKETOZO_ASSEMBLY_LIMIT 8    /* the largest plan: originals that are put together at once for a client */
#define WURAKETOZO_FRAGMENT_LIMIT 64   /* fragments of an original */
#define WURAKETOZO_ORIGINAL_LIMIT 8192 /* bytes of an original, of the smallest out buffer, and of the store for an original */

/* The bytes of the store for a client with this plan, 1 to WURAKETOZO_ASSEMBLY_LIMIT; of the sum of all plans, those of the whole store.
 * The first client's share stands at the front of the store, each other one directly behind the shares before it, and the store ends
 * where the last one does. */
#define WURAKETOZO_SHARE(plan) ((size_t)(plan) * WURAKETOZO_ORIGINAL_LIMIT)

typedef struct {
    wuraketozo_address source;
    wuraketozo_address destination;
    uint16_t source_port;
    uint16_t destination_port;
} wuraketozo_flow;

/* A held fragment. `last` is 0, or any other number for the last one. */
typedef struct {
    uint16_t offset; /* its place in the original */
    uint16_t length;
    uint16_t option_start;
    uint16_t last;
} wuraketozo_held;

typedef struct {
    wuraketozo_flow flow;
    uint32_t identification;
    uint64_t opened;
    uint64_t count;
    wuraketozo_held fragments[WURAKETOZO_FRAGMENT_LIMIT];
} wuraketozo_assembly;

/* One client's record. A host allocates one for each client, puts its plan in (wuraketozo_plan does), has them set up, and need not look
 * inside. The plan is the host's to choose; every other field is the library's. A fresh record is all zeros but its plan, and one that is
 * all zeros has none: refusal 32. To change a plan, put in the new one, lend a store of the new length and set up anew: a plan that
 * changes under a table moves every later client's share. */
typedef struct {
    uint64_t plan; /* 1 to WURAKETOZO_ASSEMBLY_LIMIT: originals under way at once; a set-up reads it and keeps it */
    uint64_t time;
    uint64_t offered;
    uint64_t held;
    uint64_t delivered;
    uint64_t expired;
    uint64_t conflicted;
    uint64_t repeated;
    uint64_t rejected;
    wuraketozo_assembly assemblies[WURAKETOZO_ASSEMBLY_LIMIT];
} wuraketozo_client;

/* The layout of the structs here has a number, which goes up with every change of one of them or of a call's arguments. A library has
 * the call below with its own layout's number in its name and no other one. The reference to it that stands here goes into every
 * object that includes this header, so that a host does not link against a library of another layout. It answers the bytes of a
 * record, as wuraketozo_record_size does. */
size_t wuraketozo_layout_7(void);
#if defined(__has_attribute)
#if __has_attribute(retain)
#define WURAKETOZO_KEPT __attribute__((used, retain))
#endif
#endif
#if !defined(WURAKETOZO_KEPT) && defined(__GNUC__)
#define WURAKETOZO_KEPT __attribute__((used))
#endif
#ifdef WURAKETOZO_KEPT
static size_t (*const wuraketozo_layout)(void) WURAKETOZO_KEPT = wuraketozo_layout_7;
#endif
#if defined(__STDC_VERSION__) && __STDC_VERSION__ >= 201112L
_Static_assert(sizeof(wuraketozo_client) == 72 + WURAKETOZO_ASSEMBLY_LIMIT * (32 + WURAKETOZO_FRAGMENT_LIMIT * 8),
               "a record has no padding");
_Static_assert(sizeof(wuraketozo_reading) == 112 && sizeof(wuraketozo_rereading) == 72, "readings are 112 and 72 bytes");
_Static_assert(sizeof(wuraketozo_option) == 32 && sizeof(wuraketozo_original_option) == 32, "an option is 32 bytes");
#endif

/* The bytes of a record, of the store for a client with this plan (0 if it is not 1 to WURAKETOZO_ASSEMBLY_LIMIT), of the smallest out
 * buffer, and how many clients a table may have. */
size_t wuraketozo_record_size(void);
size_t wuraketozo_share_size(uint64_t plan);
size_t wuraketozo_out_size(void);
size_t wuraketozo_client_limit(void);

/* Makes `count` fresh records, each with the plan that stands at its number in `plans`, and answers the bytes that the store must have for
 * them. Answers 0 and writes nothing if `count` is not 1 to WURAKETOZO_CLIENT_LIMIT or one of the plans is not 1 to
 * WURAKETOZO_ASSEMBLY_LIMIT. This is for records that are to be set up next: what stood in them is gone. It is C of this header and no
 * call of the library: run, not proved. */
static inline size_t wuraketozo_plan(wuraketozo_client *records, const uint64_t *plans, size_t count)
{
    size_t store_length = 0, k, at;
    if (count < 1 || count > WURAKETOZO_CLIENT_LIMIT)
        return 0;
    for (k = 0; k < count; k++) {
        if (plans[k] < 1 || plans[k] > WURAKETOZO_ASSEMBLY_LIMIT)
            return 0;
        store_length += WURAKETOZO_SHARE(plans[k]);
    }
    for (k = 0; k < count; k++) {
        unsigned char *bytes = (unsigned char *)&records[k];
        for (at = 0; at < sizeof(wuraketozo_client); at++)
            bytes[at] = 0;
        records[k].plan = plans[k];
    }
    return store_length;
}

/* A client's account. offered is the sum of the other six. */
typedef struct {
    uint64_t offered;
    uint64_t held;
    uint64_t delivered;
    uint64_t expired;
    uint64_t conflicted;
    uint64_t repeated;
    uint64_t rejected;
} wuraketozo_figures;

/* What a table call came to. */
enum {
    WURAKETOZO_REFUSED = 0,
    WURAKETOZO_RESET = 1,
    WURAKETOZO_STORED = 2,
    WURAKETOZO_REPEATED = 3,
    WURAKETOZO_CONFLICT = 4,
    WURAKETOZO_DELIVERED = 5,
    WURAKETOZO_ADVANCED = 6,
    WURAKETOZO_ACCOUNT = 7
};

typedef struct {
    uint32_t refusal;           /* 0, 20 to 30, or 32 */
    uint32_t outcome;           /* WURAKETOZO_REFUSED .. WURAKETOZO_ACCOUNT */
    size_t length;              /* DELIVERED: the original is the first `length` bytes of out */
    size_t option_start;        /* DELIVERED: the place where its options start, for wuraketozo_reread */
    wuraketozo_figures figures; /* ACCOUNT */
} wuraketozo_answer;

/* Every call on a table has these tests first, in this order:
 *     20  not 1 to WURAKETOZO_CLIENT_LIMIT records
 *     32  a record's plan is not 1 to WURAKETOZO_ASSEMBLY_LIMIT, be it this client's or another's
 *     20  the store has not exactly as many bytes as the plans come to, WURAKETOZO_SHARE of each
 * A call that is refused with one of them writes nothing. */

/* Sets the table up: makes every record fresh but for its plan, which it reads and keeps, and leaves the store. Refusals 20 and 32: 32
 * where the records are zeros, which have no plan (see wuraketozo_plan). */
wuraketozo_answer wuraketozo_reset(wuraketozo_client *records, size_t count, const uint8_t *store, size_t store_length);

/* A fragment without its bytes. `time` is in milliseconds and must not run backwards for a client. */
typedef struct {
    uint64_t time;
    wuraketozo_flow flow;
    uint32_t identification;
    size_t place;        /* where it stands in the original */
    size_t option_start; /* a place too, looked at only if it is the last one */
    uint32_t last;       /* 0: not the last one; anything else: the last one */
} wuraketozo_fragment;

/* Offers a fragment for client k. Refusals 20, 32, and 21 to 30; 29 and 30 count its bytes as turned away. 29: a new original, and as
 * many are under way for this client as its plan allows. `out` is written only with DELIVERED. */
wuraketozo_answer wuraketozo_offer(wuraketozo_client *records, size_t count, uint8_t *store, size_t store_length, size_t k,
                                   wuraketozo_fragment fragment, const uint8_t *bytes, size_t length, uint8_t *out, size_t room);

/* Moves client k's time on, and lets what is 120,000 ms old expire. Refusals 20, 32, 21, 22, 27. */
wuraketozo_answer wuraketozo_advance(wuraketozo_client *records, size_t count, const uint8_t *store, size_t store_length, size_t k,
                                     uint64_t time);

/* Client k's account. Refusals 20, 32, 21, 22. */
wuraketozo_answer wuraketozo_account(const wuraketozo_client *records, size_t count, const uint8_t *store, size_t store_length,
                                     size_t k);

/* ---- one call for each datagram ---- */

enum { WURAKETOZO_UNREAD = 0, WURAKETOZO_DATAGRAM = 1, WURAKETOZO_FRAGMENT = 2 };

typedef struct {
    uint32_t what;              /* WURAKETOZO_UNREAD: see reading.refusal; DATAGRAM: see reading; FRAGMENT: see answer */
    wuraketozo_reading reading; /* all 0 with FRAGMENT */
    wuraketozo_answer answer;   /* all 0 without FRAGMENT */
} wuraketozo_received;

/* Reads a payload that arrived for client k and, if it is a fragment, offers it with its own flow. What is no fragment touches no
 * record, no store and no out. The strictness may be another one with each datagram. */
wuraketozo_received wuraketozo_receive(wuraketozo_client *records, size_t count, uint8_t *store, size_t store_length, size_t k,
                                       uint64_t time, wuraketozo_address source, wuraketozo_address destination,
                                       uint32_t strictness, const uint8_t *payload, size_t length, uint8_t *out, size_t room);

#ifdef __cplusplus
}
#endif

#endif

/* dc429.h: the certified ARINC 429 concentrator as a C library, libdc429.a or libdc429.so. C99 and later, C++11 and later.
 *
 * What is proved of each call are the clauses in crates/dc_embed/src. What the caller owes stands here, and no call looks:
 *  - each pointer is valid and aligned for its type and not null, also where a length is 0; a text has at least as many
 *    bytes as its length says; what two pointers of one call lead to does not overlap;
 *  - a `dc429` is DC429_CLOSED, or as the last call with it left it. It is never copied, moved, changed or compared, and is
 *    in one call at a time. Another thread may go on with it once a lock, the start or the join of a thread, or an atomic
 *    with SEQ_CST has put its calls behind those of the first. Several may be open, and be called side by side;
 *  - malloc gives blocks aligned to 16 bytes. Only dc429_open, dc429_check, dc429_find, dc429_margins, dc429_least_margins and
 *    dc429_close call malloc, realloc or free;
 *  - no call is made from a signal handler that may have interrupted a call with the same `dc429`, nor one of these six from
 *    any signal handler.
 * No call locks, waits, prints, reads the clock, sets errno of its own or keeps a pointer that it was given.
 *
 * The numbers of kinds, places, statuses, lists and formats that stand here are never given another meaning: what is new
 * gets a number of its own. So a program has a default case for kinds that it does not know.
 */
#ifndef DC429_H
#define DC429_H

#include <stdbool.h>
#include <stddef.h>
#include <stdint.h>

#ifdef __cplusplus
extern "C" {
#endif

/* The version of this header, and of the library beside which it was installed: major.minor.patch, and the number
 * 10000 * major + 100 * minor + patch. */
#define DC429_VERSION "0.1.0"
#define DC429_VERSION_NUMBER 100

/* An engine, open or closed. The members are the library's: read and write none. 16 bytes. */
typedef struct dc429 {
    void *engine;
    bool is_open;
} dc429;

/* What each `dc429` begins as: dc429 engine = DC429_CLOSED; */
#define DC429_CLOSED { 0, false }

/* The longest name of a bus, stream, router, output or label, in bytes. It has no zero byte at its end. */
#define DC429_LONGEST_NAME 16

/* ---- Faults: why tables or a certificate are not accepted ---- */

/* As dc429 check prints them: the letter, and the code with two digits (one for K), T16, K5, C06. docs/formats.md has what
 * each code means and what to do. */
enum dc429_fault_kind {
    DC429_NO_FAULT = 0,
    DC429_MEMORY = 'M',              /* an allocation failed: nothing is known of the texts */
    DC429_UNREADABLE_TABLES = 'T',   /* the tables' text is none, or breaks a rule */
    DC429_UNREADABLE_CERTIFICATE = 'K', /* the certificate's text is none */
    DC429_REFUSED_CERTIFICATE = 'C', /* the certificate is not one for these tables */
    DC429_NO_CERTIFICATE = 'F'       /* dc429_find, dc429_least_margins: no certificate is accepted for these tables */
};

/* The place of a fault of the tables (T). */
enum dc429_tables_place {
    DC429_TABLES_TOP = 0, DC429_TABLES_PARAMETER = 1, DC429_TABLES_BUS = 2, DC429_TABLES_STREAM = 3, DC429_TABLES_ROUTER = 4,
    DC429_TABLES_OUTPUT = 5, DC429_TABLES_LABEL = 6
};

/* The place of a fault of the certificate (K, C), and of what stands in its way (F): the list. C and F have no 0. */
enum dc429_certificate_place {
    DC429_CERTIFICATE_TOP = 0, DC429_CERTIFICATE_INPUTS = 1, DC429_CERTIFICATE_OUTPUTS = 2, DC429_CERTIFICATE_LABELS = 3
};

/* The first fault, in the order of docs/formats.md. Where there is none, all members are 0. */
typedef struct dc429_fault {
    uint32_t kind;   /* an enum dc429_fault_kind */
    uint32_t code;   /* T: 1 to 24, K: 1 to 6, C: 1 to 12, F: 1 to 3; M: 0 */
    uint32_t place;  /* T: an enum dc429_tables_place; K, C, F: an enum dc429_certificate_place; M: 0 */
    uint32_t window; /* C04, C06: the least number of ticks that fails; F3: the condition that fails, 8, 9, 11 or 12; else 0 */
    size_t index;    /* the number in the list, from 0; where the place is 0, and at M and C01: 0 */
} dc429_fault;

/* ---- Events: what an engine is told, and what it replies ---- */

/* What an engine replies to an event, or why it refuses it. */
enum dc429_kind {
    DC429_NOTHING = 0, /* the engine is closed */

    /* replies to dc429_arrive: the first that applies, in the order 2, 3, 4, 6, 5, 1 */
    DC429_QUEUED = 1,     /* the word waits in the bus's queue: backlog */
    DC429_BAD_PARITY = 2, /* the number of its ones is even: it is lost */
    DC429_UNDECLARED = 3, /* the bus has no stream of its label and SDI: it is lost */
    DC429_TOO_EARLY = 4,  /* a policed bus, and its stream may not send yet: it is lost */
    DC429_OVERRUN = 5,    /* the queue is full: it is lost, and the bus brings nothing more */
    DC429_LATCHED = 6,    /* the queue overran before: it is lost */
    /* replies to dc429_route */
    DC429_TOOK = 7,       /* the router took a word: number, word */
    DC429_EMPTY = 8,      /* no word waited on the bus that it visited: number */
    /* replies to dc429_send */
    DC429_SENT = 9,       /* put this word on the output's wire: label, word */
    DC429_IDLE = 10,      /* nothing is due */
    /* the reply to dc429_tick */
    DC429_NOW = 11,       /* the next tick begins: tick */

    /* refusals: the engine is unchanged */
    DC429_SPENT = 32,       /* dc429_route: the router has made its `most` steps in this tick */
    DC429_TOO_SOON = 33,    /* dc429_send: the output's last send lies less than its gap back */
    DC429_OWED_ROUTER = 34, /* dc429_tick: this router owes a step before the tick may end: number */
    DC429_OWED_OUTPUT = 35, /* dc429_tick: this output owes a send before the tick may end: number */
    DC429_TICK_LIMIT = 36,  /* dc429_tick: 2 to the 40th ticks are over (34 years of milliseconds) */
    DC429_UNKNOWN = 37      /* there is no bus, router or output of this number */
    /* 38 and 39 are given to a wire and to the clock as what owes steps: neither owes any */
};

/* The answer to an event. Members that the kind does not name are 0. */
typedef struct dc429_reply {
    uint32_t kind;    /* an enum dc429_kind */
    uint32_t label;   /* DC429_SENT: the label's number, 0 to 255: label 203 is 131 */
    uint32_t word;    /* DC429_TOOK, DC429_SENT: the whole word, bit 1 in the least significant bit */
    uint32_t backlog; /* DC429_QUEUED: words that wait in the bus's queue with this one, 1 to 4,096 */
    size_t number;    /* DC429_TOOK, DC429_EMPTY: the bus; DC429_OWED_ROUTER: the router; DC429_OWED_OUTPUT: the output */
    uint64_t tick;    /* DC429_NOW: the tick that begins, 1 to 2 to the 40th */
} dc429_reply;

/* What an event came to. */
enum dc429_status {
    DC429_OK = 0,       /* it was carried out: the kind is a reply */
    DC429_REFUSED = 1,  /* it may not follow those before it: the kind is a refusal */
    DC429_IS_CLOSED = 2 /* the engine is closed: the kind is DC429_NOTHING */
};

/* ---- Names and numbers ---- */

/* What has a name and a number. Numbers count from 0 through the whole tables, in the order of the text. */
enum dc429_list { DC429_BUS = 1, DC429_STREAM = 2, DC429_ROUTER = 3, DC429_OUTPUT = 4, DC429_LABEL = 5 };

/* ---- Words ---- */

/* How the data of a word are written. */
enum dc429_format { DC429_BNR = 1, DC429_BCD = 2, DC429_DISC = 3 };

/* What the SSM of a word says in its format. */
enum dc429_word_status {
    DC429_FAILURE_WARNING = 1, DC429_NO_COMPUTED_DATA = 2, DC429_FUNCTIONAL_TEST = 3, DC429_NORMAL = 4,
    DC429_PLUS = 5, DC429_MINUS = 6, DC429_VERIFIED = 7
};

/* The fields of a word. */
typedef struct dc429_fields {
    uint32_t label;     /* bits 1 to 8 as the number that the octal digits write, 0 to 255: label 203 is 131 */
    uint32_t sdi;       /* bits 9 and 10, 0 to 3 */
    uint32_t ssm;       /* bits 30 and 31, 0 to 3 */
    uint32_t status;    /* what the SSM says in the format: an enum dc429_word_status */
    uint32_t bits;      /* bits 11 to 29, 0 to 524,287 */
    int32_t bnr;        /* bits 11 to 29 in two's complement, -262,144 to 262,143 */
    uint32_t bcd;       /* the number that the five digits write, 0 to 79,999; 0 where one of them is no digit */
    uint32_t bad_digit; /* the first place that is no digit, 2 to 5 from the most significant; 0 where each is one */
    bool is_odd;        /* the number of ones is odd, as it has to be */
    bool is_usable;     /* the SSM says that data in the format may be used */
} dc429_fields;

/* ---- Calls ---- */

/* Opens an engine on the text of tables (TOML) and of a certificate (JSON) that is accepted for them: before any event, at
 * tick 0. Each text of at most 1 MiB. What `engine` held is closed before.
 * true: `engine` is open, and all members of `fault` are 0. false: it is closed, and `fault` says why. */
bool dc429_open(dc429 *engine, const uint8_t *tables, size_t tables_length, const uint8_t *certificate,
                size_t certificate_length, dc429_fault *fault);

/* Whether the certificate is accepted for the tables; nothing is kept. false: `fault` says why not. */
bool dc429_check(const uint8_t *tables, size_t tables_length, const uint8_t *certificate, size_t certificate_length,
                 dc429_fault *fault);

/* The least certificate of tables, as dc429 find prints it, with its line feed. true: `length` is how many bytes it takes, and it
 * stands at the front of `text`, where `room` is no less; else `text` is unchanged: call again with more room.
 * false: `length` is 0, `text` is unchanged, and `fault` says why: T, F or M. */
bool dc429_find(const uint8_t *tables, size_t tables_length, uint8_t *text, size_t room, size_t *length, dc429_fault *fault);

/* How far each condition of a certificate is from failing: the text that dc429 margins prints without options, whatever it ends
 * with, with its line feeds. `length` is how many bytes it takes, and it stands at the front of `text`, where `room` is no less;
 * else `text` is unchanged: call again with more room. Tables at their limits take 400 KB.
 * true: the certificate is accepted. false: `fault` says why not, as of dc429_check; the text is told all the same, but for M,
 * where `length` is 0 and `text` is unchanged. */
bool dc429_margins(const uint8_t *tables, size_t tables_length, const uint8_t *certificate, size_t certificate_length,
                   uint8_t *text, size_t room, size_t *length, dc429_fault *fault);

/* The same without a certificate, of the least one: the text that dc429 margins prints of the tables alone. true: there is one.
 * false: `fault` says why there is none, as of dc429_find, and the text tells all margins that are known; M as above. */
bool dc429_least_margins(const uint8_t *tables, size_t tables_length, uint8_t *text, size_t room, size_t *length,
                         dc429_fault *fault);

/* Closes an engine and frees its memory; of a closed one, nothing. */
void dc429_close(dc429 *engine);

/* The events. Each returns an enum dc429_status and writes all of `reply`.
 * A word arrives on a bus, bit 1 in the least significant bit of `word`. Kinds 1 to 6, 37. */
uint32_t dc429_arrive(dc429 *engine, size_t bus, uint32_t word, dc429_reply *reply);

/* A router makes a step: it visits the next bus of its list. Kinds 7, 8, 32, 37. */
uint32_t dc429_route(dc429 *engine, size_t router, dc429_reply *reply);

/* An output makes a send step. Kinds 9, 10, 33, 37. */
uint32_t dc429_send(dc429 *engine, size_t output, dc429_reply *reply);

/* The running tick ends. Kinds 11, 34, 35, 36. */
uint32_t dc429_tick(dc429 *engine, dc429_reply *reply);

/* The number of a name in a list of the tables, an enum dc429_list. false: the engine is closed, there is no such list, or
 * no such name in it; `number` is unchanged then. */
bool dc429_number(dc429 *engine, uint32_t list, const uint8_t *name, size_t length, size_t *number);

/* Copies the name of a number in a list to the front of `text`, and returns its length, 1 to DC429_LONGEST_NAME. 0: the
 * engine is closed, there is no such list or number, or `room` is less than the length; `text` is unchanged then. */
size_t dc429_name(dc429 *engine, uint32_t list, size_t number, uint8_t *text, size_t room);

/* The fields of a word in a format, an enum dc429_format. false: there is no such format; `fields` is unchanged then. */
bool dc429_decode(uint32_t word, uint32_t format, dc429_fields *fields);

#ifdef __cplusplus
}
#endif
#endif

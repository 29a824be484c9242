/* What scripts/embed and bench/embed run of the library beside the examples.
 *
 * usage: embed WHAT TABLES CERTIFICATE [TICKS]
 *   allocations   how often the library allocates; each allocation of dc429_open refused in turn, and each with all behind it
 *   threads       eight threads with an engine each, and one engine that goes from thread to thread
 *   edges         closed engines, numbers and lists that are none, rooms that are too short, texts of no bytes
 *   stack         how much of its stack a thread uses in each call; also of texts that are refused
 *   calls         how much of the heap an engine keeps, and how long a call takes in the mean of so many ticks, 1,000,000 where it is not
 *                 said: the best of ten rounds
 *   longest       how long each call takes by itself in 10 million: of ten rounds of the same calls the least, the clock's own time in it
 * Linked with --wrap=malloc, --wrap=realloc and --wrap=free. Each line that is printed is a name and numbers.
 */
#define _GNU_SOURCE
#include "../examples/c/load.h"
#include "dc429.h"

#include <inttypes.h>
#include <malloc.h>
#include <pthread.h>
#include <string.h>
#include <sys/mman.h>
#include <time.h>

enum { THREADS = 8, ROUNDS = 20, STEPS = 20000, STACK = 4 << 20, TIMED = 10000000, TIMED_ROUNDS = 10 };

static uint8_t *tables, *certificate;
static size_t tables_length, certificate_length, buses, routers, outputs;
static uint64_t ticks_asked = 1000000;
static _Thread_local uint64_t made_calls;

/* ---- allocations ---- */

/* How many blocks this thread asked for and how many it freed, the bytes that it did not; which block is refused, and whether all
   behind it. */
static _Thread_local long taken, freed, held;
static long refused = -1;
static bool all_behind;

void *__real_malloc(size_t size);
void *__real_realloc(void *block, size_t size);
void __real_free(void *block);

static bool is_refused(void) {
    long number = taken++;
    return number == refused || (all_behind && refused >= 0 && number > refused);
}

/* A block that was taken. */
static void *counted(void *block) {
    held += block ? (long)malloc_usable_size(block) : 0;
    return block;
}

void *__wrap_malloc(size_t size) { return is_refused() ? NULL : counted(__real_malloc(size)); }

/* It takes the new block, and frees the one before it. */
void *__wrap_realloc(void *block, size_t size) {
    long had = block ? (long)malloc_usable_size(block) : 0;
    void *made = is_refused() ? NULL : counted(__real_realloc(block, size));
    freed += made && block;
    held -= made ? had : 0;
    return made;
}

void __wrap_free(void *block) {
    freed += block != NULL;
    held -= block ? (long)malloc_usable_size(block) : 0;
    __real_free(block);
}

static bool open_engine(dc429 *engine, dc429_fault *fault) {
    return dc429_open(engine, tables, tables_length, certificate, certificate_length, fault);
}

/* How many of a list the tables have. */
static size_t count_of(dc429 *engine, uint32_t list) {
    uint8_t name[DC429_LONGEST_NAME];
    size_t count = 0;
    while (dc429_name(engine, list, count, name, sizeof name) > 0)
        count++;
    return count;
}

/* A word of label 203 or 204. */
static uint32_t word_of(uint64_t number) { return number % 2 ? 0xE0000021 : 0x600000C1; }

/* One tick of calls: words on a fifth of the buses, each router till it is spent, each output once, the tick. The sum is of all that
   is answered. */
static uint64_t one_tick(dc429 *engine, uint64_t tick) {
    uint64_t sum = 0, made = outputs + 1;
    dc429_reply reply;
    for (size_t bus = 0; bus < buses; bus++)
        if ((tick + bus) % 10 < 2) {
            dc429_arrive(engine, bus, word_of(tick), &reply);
            sum = sum * 31 + reply.kind + reply.backlog;
            made++;
        }
    for (size_t router = 0; router < routers; router++)
        for (reply.kind = 0; reply.kind != DC429_SPENT; sum = sum * 31 + reply.kind + reply.word, made++)
            dc429_route(engine, router, &reply);
    for (size_t output = 0; output < outputs; output++) {
        dc429_send(engine, output, &reply);
        sum = sum * 31 + reply.kind + reply.word;
    }
    dc429_tick(engine, &reply);
    made_calls += made;
    return sum * 31 + reply.kind + reply.tick;
}

/* Refuses each of so many allocations of dc429_open in turn, or each and all behind it. Where one is made up for, the engine is
   open; after each the next one opens, and answers. */
static void refusals(long needed, bool behind) {
    long memory = 0, opened = 0, well = 0;
    all_behind = behind;
    for (long at = 0; at < needed; at++) {
        dc429 engine = DC429_CLOSED;
        dc429_fault fault;
        taken = freed = 0;
        refused = at;
        bool is_open = open_engine(&engine, &fault);
        refused = -1;
        opened += is_open && engine.is_open;
        memory += !is_open && !engine.is_open && fault.kind == DC429_MEMORY;
        well += open_engine(&engine, &fault) && one_tick(&engine, 0) != 0;
        dc429_close(&engine);
    }
    printf("%s %ld memory %ld opened %ld well %ld\n", behind ? "behind" : "each", needed, memory, opened, well);
}

static bool told_margins(bool is_least, uint8_t *text, size_t room, size_t *length, dc429_fault *fault);

/* Refuses each of so many allocations of a call for margins in turn: it tells that and no text, or made up for it; it keeps nothing. */
static void margin_refusals(bool is_least, long needed) {
    static uint8_t text[1 << 16];
    long memory = 0, told = 0, kept = 0;
    all_behind = false;
    for (long at = 0; at < needed; at++) {
        dc429_fault fault;
        size_t length = 77;
        taken = freed = held = 0;
        refused = at;
        bool is_told = told_margins(is_least, text, sizeof text, &length, &fault);
        refused = -1;
        told += is_told && length > 0;
        memory += !is_told && fault.kind == DC429_MEMORY && length == 0;
        kept += held != 0;
    }
    printf("%s_refused %ld memory %ld told %ld kept %ld\n", is_least ? "least" : "margins", needed, memory, told, kept);
}

static int allocations(void) {
    dc429 engine = DC429_CLOSED;
    dc429_fault fault;
    dc429_fields fields;
    uint8_t name[DC429_LONGEST_NAME];
    size_t number;
    taken = freed = 0;
    bool is_open = open_engine(&engine, &fault);
    long needed = taken;
    printf("open %d takes %ld frees %ld\n", is_open, taken, freed);
    taken = freed = 0;
    for (uint64_t tick = 0; tick < STEPS; tick++) {
        one_tick(&engine, tick);
        dc429_number(&engine, DC429_BUS, (const uint8_t *)"A", 1, &number);
        dc429_name(&engine, DC429_STREAM, tick % 3, name, sizeof name);
        dc429_decode((uint32_t)tick * 2654435761u, 1 + tick % 4, &fields);
    }
    printf("events takes %ld frees %ld\n", taken, freed);
    taken = freed = 0;
    dc429_close(&engine);
    printf("close takes %ld frees %ld\n", taken, freed);
    taken = freed = 0;
    bool is_accepted = dc429_check(tables, tables_length, certificate, certificate_length, &fault);
    printf("check %d takes %ld frees %ld\n", is_accepted, taken, freed);
    taken = freed = 0;
    bool is_found = dc429_find(tables, tables_length, name, sizeof name, &number, &fault);
    printf("find %d takes %ld frees %ld\n", is_found, taken, freed);
    for (int is_least = 0; is_least < 2; is_least++) {
        taken = freed = 0;
        bool is_told = told_margins(is_least, name, sizeof name, &number, &fault);
        printf("%s %d takes %ld frees %ld\n", is_least ? "least" : "margins", is_told, taken, freed);
        margin_refusals(is_least, taken);
    }
    for (int behind = 0; behind < 2; behind++)
        refusals(needed, behind);
    return 0;
}

/* ---- threads ---- */

static void *run_own(void *told) {
    uint64_t sum = 0;
    for (int round = 0; round < ROUNDS; round++) {
        dc429 engine = DC429_CLOSED;
        dc429_fault fault;
        if (!open_engine(&engine, &fault))
            return NULL;
        for (uint64_t tick = 0; tick < STEPS / ROUNDS; tick++)
            sum = sum * 31 + one_tick(&engine, tick);
        dc429_close(&engine);
    }
    *(uint64_t *)told = sum;
    return NULL;
}

/* A thousand ticks of an engine that another thread has opened and stepped. */
static void *run_given(void *given) {
    dc429 *engine = given;
    dc429_reply reply;
    for (uint64_t tick = 0; tick < 1000; tick++)
        one_tick(engine, tick);
    dc429_send(engine, 0, &reply);
    return (void *)(uintptr_t)(reply.kind == DC429_SENT || reply.kind == DC429_IDLE);
}

static int threads(void) {
    pthread_t its[THREADS];
    uint64_t sums[THREADS] = { 0 };
    int agree = 0, went_on = 0;
    for (int at = 0; at < THREADS; at++)
        pthread_create(&its[at], NULL, run_own, &sums[at]);
    for (int at = 0; at < THREADS; at++) {
        pthread_join(its[at], NULL);
        agree += sums[at] != 0 && sums[at] == sums[0];
    }
    dc429 engine = DC429_CLOSED;
    dc429_fault fault;
    dc429_reply reply;
    bool is_open = open_engine(&engine, &fault);
    for (int at = 0; is_open && at < 3; at++) {
        void *told = NULL;
        pthread_create(&its[at], NULL, run_given, &engine);
        pthread_join(its[at], &told);
        went_on += told != NULL;
    }
    for (size_t router = 0; router < routers; router++)
        dc429_route(&engine, router, &reply);
    dc429_tick(&engine, &reply);
    dc429_close(&engine);
    printf("agree %d\nhanded %d tick %" PRIu64 "\n", agree, went_on, reply.tick);
    return 0;
}

/* ---- edges ---- */

/* Whether all bytes of a reply are those of this kind alone. */
static bool is_bare(const dc429_reply *reply, uint32_t kind) {
    return reply->kind == kind && !reply->label && !reply->word && !reply->backlog && !reply->number && !reply->tick;
}

static bool closed_edges(void) {
    dc429 engine = DC429_CLOSED;
    dc429_reply reply;
    size_t number = 77;
    uint8_t name[DC429_LONGEST_NAME] = "unchanged";
    bool is_well = true;
    for (int call = 0; call < 4; call++) {
        memset(&reply, 0xA5, sizeof reply);
        uint32_t status = call == 0   ? dc429_arrive(&engine, 0, 0x600000C1, &reply)
                          : call == 1 ? dc429_route(&engine, 0, &reply)
                          : call == 2 ? dc429_send(&engine, 0, &reply)
                                      : dc429_tick(&engine, &reply);
        is_well = is_well && status == DC429_IS_CLOSED && is_bare(&reply, DC429_NOTHING);
    }
    is_well = is_well && !dc429_number(&engine, DC429_BUS, (const uint8_t *)"A", 1, &number) && number == 77;
    is_well = is_well && dc429_name(&engine, DC429_BUS, 0, name, sizeof name) == 0 && memcmp(name, "unchanged", 10) == 0;
    dc429_close(&engine);
    dc429_close(&engine);
    return is_well && !engine.is_open;
}

static bool number_edges(dc429 *engine) {
    dc429_reply reply;
    uint64_t before = one_tick(engine, 0);
    bool is_well = before != 0;
    for (int call = 0; call < 3; call++)
        for (int far = 0; far < 2; far++) {
            size_t number = far ? SIZE_MAX : (call == 0 ? buses : call == 1 ? routers : outputs);
            uint32_t status = call == 0   ? dc429_arrive(engine, number, 0x600000C1, &reply)
                              : call == 1 ? dc429_route(engine, number, &reply)
                                          : dc429_send(engine, number, &reply);
            is_well = is_well && status == DC429_REFUSED && is_bare(&reply, DC429_UNKNOWN);
        }
    return is_well;
}

static bool name_edges(dc429 *engine) {
    uint8_t name[DC429_LONGEST_NAME + 1];
    size_t number = 77, length;
    bool is_well = true;
    for (uint32_t list = 0; list < 8; list++) {
        memset(name, '-', sizeof name);
        length = dc429_name(engine, list, 0, name, DC429_LONGEST_NAME);
        bool is_list = list >= DC429_BUS && list <= DC429_LABEL;
        is_well = is_well && (length > 0) == is_list && name[length] == '-' && name[DC429_LONGEST_NAME] == '-';
        is_well = is_well && dc429_number(engine, list, name, length, &number) == is_list && number == (is_list ? 0 : 77);
        if (is_list)
            is_well = is_well && dc429_name(engine, list, 0, name, length - 1) == 0 && dc429_name(engine, list, 0, name, length) == length;
        number = 77;
    }
    is_well = is_well && dc429_name(engine, DC429_BUS, SIZE_MAX, name, sizeof name) == 0;
    return is_well && !dc429_number(engine, DC429_BUS, (const uint8_t *)"no-such-name-that-is-longer", 27, &number) && number == 77;
}

static bool text_edges(dc429 *engine) {
    static uint8_t large[2000000];
    uint8_t none = 0;
    dc429_fault fault;
    dc429_fields fields;
    memset(&fields, 0xA5, sizeof fields);
    bool is_well = !dc429_check(&none, 0, &none, 0, &fault) && fault.kind == DC429_UNREADABLE_TABLES;
    is_well = is_well && !dc429_check(large, sizeof large, certificate, certificate_length, &fault) && fault.kind == DC429_UNREADABLE_TABLES;
    is_well = is_well && !dc429_check(tables, tables_length, &none, 0, &fault) && fault.kind == DC429_UNREADABLE_CERTIFICATE;
    is_well = is_well && !dc429_open(engine, tables, tables_length, &none, 0, &fault) && !engine->is_open;
    is_well = is_well && fault.kind == DC429_UNREADABLE_CERTIFICATE && fault.code == 1 && fault.place == DC429_CERTIFICATE_TOP;
    is_well = is_well && !dc429_decode(0, 0, &fields) && !dc429_decode(0, 4, &fields) && fields.label == 0xA5A5A5A5;
    memset(&fault, 0xA5, sizeof fault);
    is_well = is_well && open_engine(engine, &fault) && !fault.kind && !fault.code && !fault.place && !fault.window && !fault.index;
    return is_well && open_engine(engine, &fault) && engine->is_open;
}

/* The least certificate: written where there is room for all of it, else not at all. */
static bool found_edges(void) {
    static uint8_t text[1 << 20];
    dc429_fault fault;
    size_t length = 77, again = 77;
    text[0] = '-';
    bool is_well = dc429_find(tables, tables_length, text, 0, &length, &fault) && length > 1 && text[0] == '-';
    is_well = is_well && dc429_find(tables, tables_length, text, length - 1, &again, &fault) && again == length && text[0] == '-';
    if (!is_well || length >= sizeof text)
        return false;
    text[length] = '-';
    is_well = dc429_find(tables, tables_length, text, length, &again, &fault) && again == length && text[0] == '{';
    is_well = is_well && text[length - 1] == '\n' && text[length] == '-' && fault.kind == DC429_NO_FAULT;
    is_well = is_well && dc429_check(tables, tables_length, text, length, &fault);
    text[0] = '-';
    is_well = is_well && !dc429_find(tables, 1, text, sizeof text, &again, &fault) && again == 0 && text[0] == '-';
    return is_well && fault.kind == DC429_UNREADABLE_TABLES;
}

/* The margins of the certificate, or of the least one. */
static bool told_margins(bool is_least, uint8_t *text, size_t room, size_t *length, dc429_fault *fault) {
    return is_least ? dc429_least_margins(tables, tables_length, text, room, length, fault)
                    : dc429_margins(tables, tables_length, certificate, certificate_length, text, room, length, fault);
}

/* Margins: written where there is room for all of them, else not at all; of a text that is one number sign, a comment, the line that says
 * what it lacks. */
static bool margin_edges(bool is_least) {
    static uint8_t text[1 << 20];
    static const char unreadable[] = "unreadable T02 at top\n";
    dc429_fault fault;
    size_t length = 77, again = 77;
    memset(text, '-', sizeof text);
    bool is_well = told_margins(is_least, text, 0, &length, &fault) && length > 1 && text[0] == '-';
    is_well = is_well && told_margins(is_least, text, length - 1, &again, &fault) && again == length && text[0] == '-';
    if (!is_well || length >= sizeof text)
        return false;
    is_well = told_margins(is_least, text, length, &again, &fault) && again == length && fault.kind == DC429_NO_FAULT;
    is_well = is_well && memcmp(text, "accepted ", 9) == 0 && text[length - 1] == '\n' && text[length] == '-';
    bool is_read = is_least ? dc429_least_margins(tables, 1, text, sizeof text, &again, &fault)
                            : dc429_margins(tables, 1, certificate, certificate_length, text, sizeof text, &again, &fault);
    is_well = is_well && !is_read && again == sizeof unreadable - 1 && memcmp(text, unreadable, again) == 0;
    return is_well && fault.kind == DC429_UNREADABLE_TABLES && fault.code == 2;
}

static int edges(void) {
    dc429 engine = DC429_CLOSED;
    dc429_fault fault;
    bool is_open = open_engine(&engine, &fault);
    printf("closed %d\n", closed_edges());
    printf("numbers %d\n", is_open && number_edges(&engine));
    printf("names %d\n", is_open && name_edges(&engine));
    printf("texts %d\n", is_open && text_edges(&engine));
    printf("found %d\n", found_edges());
    printf("margins %d\n", margin_edges(false) && margin_edges(true));
    dc429_close(&engine);
    return 0;
}

/* ---- the stack ---- */

static dc429 stacked = DC429_CLOSED;
static const char *const STACKED[] = { "nothing", "open", "events", "names", "close", "check", "find", "margins" };

static void *run_stacked(void *what) {
    dc429_fault fault;
    dc429_fields fields;
    uint8_t name[DC429_LONGEST_NAME];
    size_t number;
    switch ((uintptr_t)what) {
    case 1: open_engine(&stacked, &fault); break;
    case 2:
        for (uint64_t tick = 0; tick < 1000; tick++)
            one_tick(&stacked, tick);
        break;
    case 3:
        dc429_number(&stacked, DC429_BUS, (const uint8_t *)"A", 1, &number);
        dc429_name(&stacked, DC429_STREAM, 1, name, sizeof name);
        dc429_decode(0xFFFFFCC1, DC429_BCD, &fields);
        break;
    case 4: dc429_close(&stacked); break;
    case 5: dc429_check(tables, tables_length, certificate, certificate_length, &fault); break;
    case 6: dc429_find(tables, tables_length, name, sizeof name, &number, &fault); break;
    case 7:
        for (int is_least = 0; is_least < 2; is_least++)
            told_margins(is_least, name, sizeof name, &number, &fault);
        break;
    default: break;
    }
    return NULL;
}

/* Runs a call on a painted stack, and counts the bytes from its far end that are no longer as they were. */
static size_t stack_of(uintptr_t what) {
    uint8_t *room = mmap(NULL, STACK, PROT_READ | PROT_WRITE, MAP_PRIVATE | MAP_ANONYMOUS, -1, 0);
    pthread_attr_t attributes;
    pthread_t thread;
    size_t left = 0;
    memset(room, 0xA5, STACK);
    pthread_attr_init(&attributes);
    pthread_attr_setstack(&attributes, room, STACK);
    pthread_create(&thread, &attributes, run_stacked, (void *)what);
    pthread_join(thread, NULL);
    while (left < STACK && room[left] == 0xA5)
        left++;
    munmap(room, STACK);
    return STACK - left;
}

static int stack(void) {
    size_t own = stack_of(0);
    for (uintptr_t what = 1; what < 8; what++)
        printf("%s %zu\n", STACKED[what], stack_of(what) - own);
    return 0;
}

/* ---- times ---- */

static uint64_t now(void) {
    struct timespec at;
    clock_gettime(CLOCK_MONOTONIC, &at);
    return (uint64_t)at.tv_sec * 1000000000u + (uint64_t)at.tv_nsec;
}

/* Of each call of a run its kind, and the least time that it took in the rounds so far: what the machine does beside a call it does
   in some other round beside another one. */
enum { ARRIVE, ROUTE, SEND, TICK, KINDS };
static const char *const TIMES_OF[KINDS] = { "arrive", "route", "send", "tick" };
static uint32_t least[TIMED];
static uint8_t kinds[TIMED];
static size_t at_call;

/* Makes a call, and keeps its time. */
static void time_call(dc429 *engine, uint8_t kind, size_t number, uint32_t word, dc429_reply *reply) {
    if (at_call == TIMED)
        return;
    uint64_t before = now();
    switch (kind) {
    case ARRIVE: dc429_arrive(engine, number, word, reply); break;
    case ROUTE: dc429_route(engine, number, reply); break;
    case SEND: dc429_send(engine, number, reply); break;
    default: dc429_tick(engine, reply); break;
    }
    uint64_t took = now() - before;
    kinds[at_call] = kind;
    least[at_call] = took < least[at_call] ? (uint32_t)took : least[at_call];
    at_call++;
}

/* One tick, each call timed by itself: a word on each bus, each router till it is spent, each output once, the tick. */
static void timed_tick(dc429 *engine, uint64_t tick) {
    dc429_reply reply;
    for (size_t bus = 0; bus < buses; bus++)
        time_call(engine, ARRIVE, bus, word_of(tick), &reply);
    for (size_t router = 0; router < routers; router++)
        for (reply.kind = 0; reply.kind != DC429_SPENT && at_call < TIMED;)
            time_call(engine, ROUTE, router, 0, &reply);
    for (size_t output = 0; output < outputs; output++)
        time_call(engine, SEND, output, 0, &reply);
    time_call(engine, TICK, 0, 0, &reply);
}

static int longest(void) {
    memset(least, 0xFF, sizeof least);
    for (int round = 0; round < TIMED_ROUNDS; round++) {
        dc429 engine = DC429_CLOSED;
        dc429_fault fault;
        uint64_t before = now();
        bool is_open = open_engine(&engine, &fault);
        if (round == 0)
            printf("open %.3f ms\n", (double)(now() - before) / 1e6);
        at_call = 0;
        for (uint64_t tick = 0; is_open && at_call < TIMED; tick++)
            timed_tick(&engine, tick);
        dc429_close(&engine);
    }
    for (uint8_t kind = 0; kind < KINDS; kind++) {
        uint64_t count = 0, sum = 0, most = 0;
        for (size_t at = 0; at < TIMED; at++)
            if (kinds[at] == kind) {
                count++;
                sum += least[at];
                most = least[at] > most ? least[at] : most;
            }
        printf("%s calls %" PRIu64 " mean %" PRIu64 " ns longest %" PRIu64 " ns\n", TIMES_OF[kind], count, sum / (count ? count : 1), most);
    }
    return 0;
}

/* The processor's time, in nanoseconds. */
static uint64_t spent(void) {
    struct timespec at;
    clock_gettime(CLOCK_PROCESS_CPUTIME_ID, &at);
    return (uint64_t)at.tv_sec * 1000000000u + (uint64_t)at.tv_nsec;
}

/* The least mean of ten rounds of the processor's time. */
static int calls(void) {
    double least = 0;
    uint64_t sum = 0, made = 0;
    for (int round = 0; round < TIMED_ROUNDS; round++) {
        dc429 engine = DC429_CLOSED;
        dc429_fault fault;
        held = 0;
        bool is_open = open_engine(&engine, &fault);
        if (round == 0)
            printf("heap %ld bytes\n", held);
        uint64_t before = spent();
        made_calls = 0;
        for (uint64_t tick = 0; is_open && tick < ticks_asked / TIMED_ROUNDS; tick++)
            sum += one_tick(&engine, tick);
        double mean = (double)(spent() - before) / (double)made_calls;
        least = round == 0 || mean < least ? mean : least;
        made += made_calls;
        dc429_close(&engine);
    }
    printf("calls %" PRIu64 " mean %.2f ns sum %" PRIu64 "\n", made, least, sum);
    return 0;
}

int main(int argc, char **argv) {
    static const struct {
        const char *name;
        int (*run)(void);
    } known[] = { { "allocations", allocations }, { "threads", threads }, { "edges", edges }, { "stack", stack }, { "calls", calls }, { "longest", longest } };
    ticks_asked = argc == 5 ? strtoull(argv[4], NULL, 10) : ticks_asked;
    if (argc < 4 || argc > 5 || !(tables = load(argv[2], &tables_length)) || !(certificate = load(argv[3], &certificate_length)))
        return 2;
    dc429 engine = DC429_CLOSED;
    dc429_fault fault;
    if (!open_engine(&engine, &fault) && strcmp(argv[1], "stack") != 0)
        return 1;
    buses = count_of(&engine, DC429_BUS);
    routers = count_of(&engine, DC429_ROUTER);
    outputs = count_of(&engine, DC429_OUTPUT);
    dc429_close(&engine);
    int status = 2;
    for (size_t at = 0; at < sizeof known / sizeof *known; at++)
        if (strcmp(known[at].name, argv[1]) == 0)
            status = known[at].run();
    free(tables);
    free(certificate);
    return status;
}

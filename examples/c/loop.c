/* The main loop of a concentrator on the certified engine: ticks of 1 ms by the clock, words from a file in place of receivers,
 * and output words to another in place of transmitters.
 *
 * usage: loop TABLES CERTIFICATE WORDS SENT [TICKS]
 *   WORDS  has lines TICK BUS WORD in order of ticks, as 12 A 600000C1
 *   SENT   gets lines TICK OUTPUT WORD
 *   TICKS  how many ticks are run: 1,000 where it is not said. SIGINT ends the loop before that.
 * The tables have to say tick_us = 1000. Status: 0 done, 1 the certificate is refused, 2 a text can't be read, 3 anything else.
 *
 * After dc429_open nothing here allocates. The handler of SIGINT calls nothing of the library: it sets a flag.
 */
#define _POSIX_C_SOURCE 200809L
#include "dc429.h"
#include "load.h"

#include <inttypes.h>
#include <signal.h>
#include <string.h>
#include <time.h>

#define TICK_NANOSECONDS 1000000L

static volatile sig_atomic_t is_stopped;

static void stop(int signal_number) {
    (void)signal_number;
    is_stopped = 1;
}

/* What the loop holds: the engine, the two files, the word that comes next, and what it has counted. */
struct loop {
    dc429 engine;
    FILE *words, *sent;
    bool has_next;
    uint64_t next_tick, tick;
    size_t next_bus, routers, outputs;
    uint32_t next_word;
    unsigned long came, lost, left, late;
};

/* In place of a receiver's interrupt: reads the word that comes next. false: the line is none. */
static bool receive(struct loop *loop) {
    char line[64], bus[DC429_LONGEST_NAME + 1];
    loop->has_next = fgets(line, sizeof line, loop->words) != NULL;
    if (!loop->has_next)
        return true;
    return sscanf(line, "%" SCNu64 " %16s %8" SCNx32, &loop->next_tick, bus, &loop->next_word) == 3 &&
           dc429_number(&loop->engine, DC429_BUS, (const uint8_t *)bus, strlen(bus), &loop->next_bus);
}

/* In place of a transmitter: writes a word. */
static void transmit(struct loop *loop, size_t output, uint32_t word) {
    char name[DC429_LONGEST_NAME + 1];
    name[dc429_name(&loop->engine, DC429_OUTPUT, output, (uint8_t *)name, DC429_LONGEST_NAME)] = 0;
    fprintf(loop->sent, "%" PRIu64 " %s %08" PRIX32 "\n", loop->tick, name, word);
    loop->left++;
}

/* The words that came in this tick, each to its bus. */
static bool take_words(struct loop *loop) {
    dc429_reply reply;
    while (loop->has_next && loop->next_tick <= loop->tick) {
        if (dc429_arrive(&loop->engine, loop->next_bus, loop->next_word, &reply) != DC429_OK)
            return false; /* DC429_UNKNOWN: not with a number that dc429_number gave */
        loop->came++;
        switch (reply.kind) {
        case DC429_QUEUED:
            break;
        case DC429_BAD_PARITY:
        case DC429_UNDECLARED:
        case DC429_TOO_EARLY:
            /* The wire or a source is at fault, and this word is lost. All else is as before: count it, go on. */
            loop->lost++;
            break;
        default:
            /* DC429_OVERRUN, DC429_LATCHED: a source sent more than its interval lets it, or a router was not stepped as
             * the tables say. The bus brings nothing more, and labels go on from their other sources: tell maintenance,
             * and open the engine anew when the equipment is next allowed to be silent for a moment. */
            loop->lost++;
            break;
        }
        if (!receive(loop))
            return false;
    }
    return true;
}

/* Each router makes all the steps that it may in this tick: more than it owes does no harm. */
static bool step_routers(struct loop *loop) {
    dc429_reply reply;
    for (size_t router = 0; router < loop->routers; router++) {
        while (dc429_route(&loop->engine, router, &reply) == DC429_OK) {
        }
        if (reply.kind != DC429_SPENT) /* DC429_SPENT: it has made its `most` steps in this tick */
            return false;
    }
    return true;
}

/* An output makes a send step, and what it sends is transmitted. */
static uint32_t send_from(struct loop *loop, size_t output, dc429_reply *reply) {
    uint32_t status = dc429_send(&loop->engine, output, reply);
    if (status == DC429_OK && reply->kind == DC429_SENT)
        transmit(loop, output, reply->word);
    return status; /* DC429_IDLE: nothing is due */
}

/* Each output makes a send step, where its wire has had the time for it. */
static bool step_outputs(struct loop *loop) {
    dc429_reply reply;
    for (size_t output = 0; output < loop->outputs; output++)
        if (send_from(loop, output, &reply) != DC429_OK && reply.kind != DC429_TOO_SOON) /* DC429_TOO_SOON: in the next tick */
            return false;
    return true;
}

/* The tick ends. Where an actor owes a step, which this loop's schedule does not let happen, it makes it late. */
static bool end_tick(struct loop *loop) {
    dc429_reply reply;
    while (dc429_tick(&loop->engine, &reply) != DC429_OK) {
        uint32_t made = DC429_REFUSED; /* DC429_TICK_LIMIT: open the engine anew */
        if (reply.kind == DC429_OWED_ROUTER)
            made = dc429_route(&loop->engine, reply.number, &reply);
        else if (reply.kind == DC429_OWED_OUTPUT)
            made = send_from(loop, reply.number, &reply);
        if (made != DC429_OK)
            return false; /* the tables' schedule is not kept: nothing is promised any more */
    }
    loop->tick = reply.tick;
    return true;
}

/* Waits until the next tick begins by the clock. Where that is over already, the tick was too long: it is counted. */
static void wait_for(struct loop *loop, struct timespec *next) {
    struct timespec now;
    next->tv_nsec += TICK_NANOSECONDS;
    if (next->tv_nsec >= 1000000000L) {
        next->tv_nsec -= 1000000000L;
        next->tv_sec++;
    }
    clock_gettime(CLOCK_MONOTONIC, &now);
    loop->late += now.tv_sec > next->tv_sec || (now.tv_sec == next->tv_sec && now.tv_nsec > next->tv_nsec);
    while (clock_nanosleep(CLOCK_MONOTONIC, TIMER_ABSTIME, next, NULL) != 0 && !is_stopped) {
    }
}

/* How many of a list the tables have. */
static size_t count_of(dc429 *engine, uint32_t list) {
    uint8_t name[DC429_LONGEST_NAME];
    size_t count = 0;
    while (dc429_name(engine, list, count, name, sizeof name) > 0)
        count++;
    return count;
}

/* So many ticks. */
static bool run(struct loop *loop, uint64_t ticks) {
    struct timespec next;
    loop->routers = count_of(&loop->engine, DC429_ROUTER);
    loop->outputs = count_of(&loop->engine, DC429_OUTPUT);
    clock_gettime(CLOCK_MONOTONIC, &next);
    bool is_well = receive(loop);
    while (is_well && loop->tick < ticks && !is_stopped) {
        is_well = take_words(loop) && step_routers(loop) && step_outputs(loop) && end_tick(loop);
        wait_for(loop, &next);
    }
    return is_well;
}

/* Opens the engine on two files. */
static int open_on(dc429 *engine, const char *tables_path, const char *certificate_path) {
    dc429_fault fault = { 0, 0, 0, 0, 0 };
    size_t tables_length = 0, certificate_length = 0;
    uint8_t *tables = load(tables_path, &tables_length), *certificate = load(certificate_path, &certificate_length);
    bool is_open = tables && certificate && dc429_open(engine, tables, tables_length, certificate, certificate_length, &fault);
    free(tables);
    free(certificate);
    if (is_open)
        return 0;
    if (fault.kind == DC429_NO_FAULT || fault.kind == DC429_MEMORY)
        fprintf(stderr, "loop: a file or memory failed\n");
    else
        fprintf(stderr, "loop: %c%" PRIu32 " place %" PRIu32 " index %zu\n", (char)fault.kind, fault.code, fault.place, fault.index);
    return fault.kind == DC429_REFUSED_CERTIFICATE ? 1 : fault.kind == DC429_NO_FAULT || fault.kind == DC429_MEMORY ? 3 : 2;
}

int main(int argc, char **argv) {
    static struct loop loop = { .engine = DC429_CLOSED };
    static char words_room[BUFSIZ], sent_room[BUFSIZ];
    if (argc != 5 && argc != 6) {
        fprintf(stderr, "usage: loop TABLES CERTIFICATE WORDS SENT [TICKS]\n");
        return 2;
    }
    int status = open_on(&loop.engine, argv[1], argv[2]);
    if (status != 0)
        return status;
    loop.words = fopen(argv[3], "r");
    loop.sent = fopen(argv[4], "w");
    bool is_well = loop.words && loop.sent;
    if (is_well) {
        setvbuf(loop.words, words_room, _IOFBF, sizeof words_room);
        setvbuf(loop.sent, sent_room, _IOFBF, sizeof sent_room);
        signal(SIGINT, stop);
        is_well = run(&loop, argc == 6 ? strtoull(argv[5], NULL, 10) : 1000);
    }
    dc429_close(&loop.engine);
    if (loop.words)
        fclose(loop.words);
    if (loop.sent && fclose(loop.sent) != 0)
        is_well = false;
    printf("ticks %" PRIu64 " came %lu lost %lu sent %lu\n", loop.tick, loop.came, loop.lost, loop.left);
    fprintf(stderr, "late %lu\n", loop.late);
    return is_well ? 0 : 3;
}

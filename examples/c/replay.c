/* Replays a trace on the certified engine, and prints what dc429 replay prints.
 *
 * usage: replay TABLES CERTIFICATE [--all | --quiet] < TRACE
 *   --all: each reply, as dc429 replay --all; --quiet: none
 * Status: 0 done, 1 the certificate or an event is refused, 2 a text can't be read, 3 memory or a file failed.
 */
#include "dc429.h"
#include "load.h"

#include <inttypes.h>
#include <string.h>

enum { DONE = 0, REFUSED = 1, UNREADABLE = 2, FAILED = 3 };

/* What a line of a trace says. */
struct event {
    char kind;        /* A, R, S or T */
    size_t number;    /* of the bus, router or output */
    uint32_t word;    /* A */
};

/* The names of a list by their numbers, and the number that was told last. Tables have at most 64 buses and routers. */
struct names {
    uint32_t list;
    size_t count, last;
    size_t length[64];
    char text[64][DC429_LONGEST_NAME + 1];
};

static struct names buses = { .list = DC429_BUS }, routers = { .list = DC429_ROUTER }, outputs = { .list = DC429_OUTPUT };
static bool shows_all, shows_none;

/* Takes the names of a list over from the engine. */
static void take_names(dc429 *engine, struct names *names) {
    while (names->count < 64) {
        char *text = names->text[names->count];
        size_t length = dc429_name(engine, names->list, names->count, (uint8_t *)text, DC429_LONGEST_NAME);
        if (length == 0)
            return;
        text[length] = 0;
        names->length[names->count++] = length;
    }
}

/* The names among which an event of this kind has its own; NULL where it has none. */
static struct names *names_of(char kind) {
    switch (kind) {
    case 'A': return &buses;
    case 'R': return &routers;
    case 'S': return &outputs;
    default: return NULL;
    }
}

/* Prints why no engine was opened, and tells the status. */
static int not_opened(const dc429_fault *fault) {
    switch (fault->kind) {
    case DC429_MEMORY:
        printf("failed memory\n");
        return FAILED;
    case DC429_REFUSED_CERTIFICATE:
        printf("refused C%02" PRIu32 " place %" PRIu32 " index %zu window %" PRIu32 "\n", fault->code, fault->place, fault->index,
               fault->window);
        return REFUSED;
    default:
        printf("unreadable %c%0*" PRIu32 " place %" PRIu32 " index %zu\n", (char)fault->kind,
               fault->kind == DC429_UNREADABLE_TABLES ? 2 : 1, fault->code, fault->place, fault->index);
        return UNREADABLE;
    }
}

/* Prints why an event was refused. */
static void tell_refusal(const struct event *event, const dc429_reply *reply, unsigned long line) {
    switch (reply->kind) {
    case DC429_SPENT: printf("refused spent %s", routers.text[event->number]); break;
    case DC429_TOO_SOON: printf("refused early %s", outputs.text[event->number]); break;
    case DC429_OWED_ROUTER: printf("refused owed %s", routers.text[reply->number]); break;
    case DC429_OWED_OUTPUT: printf("refused owed %s", outputs.text[reply->number]); break;
    case DC429_TICK_LIMIT: printf("refused ticks"); break;
    default: printf("refused unknown"); break;
    }
    printf(" at line %lu\n", line);
}

/* Prints a reply, in the tick in which the event was. */
static void tell_reply(const struct event *event, const dc429_reply *reply, uint64_t tick) {
    bool always = reply->kind == DC429_SENT || (reply->kind >= DC429_BAD_PARITY && reply->kind <= DC429_LATCHED);
    const struct names *names = names_of(event->kind);
    if (!(shows_all || always))
        return;
    if (!names) {
        printf("%" PRIu64 " tick\n", reply->tick);
        return;
    }
    printf("%" PRIu64 " %s ", tick, names->text[event->number]);
    switch (reply->kind) {
    case DC429_QUEUED: printf("queued %" PRIu32 "\n", reply->backlog); break;
    case DC429_BAD_PARITY: printf("parity %08" PRIX32 "\n", event->word); break;
    case DC429_UNDECLARED: printf("undeclared %08" PRIX32 "\n", event->word); break;
    case DC429_TOO_EARLY: printf("early %08" PRIX32 "\n", event->word); break;
    case DC429_OVERRUN: printf("overrun %08" PRIX32 "\n", event->word); break;
    case DC429_LATCHED: printf("latched %08" PRIX32 "\n", event->word); break;
    case DC429_TOOK: printf("took %s %08" PRIX32 "\n", buses.text[reply->number], reply->word); break;
    case DC429_EMPTY: printf("empty %s\n", buses.text[reply->number]); break;
    case DC429_SENT: printf("%08" PRIX32 "\n", reply->word); break;
    case DC429_IDLE: printf("idle\n"); break;
    default: printf("kind %" PRIu32 "\n", reply->kind); break;
    }
}

/* Reads the eight hexadecimal digits of a word; NULL where one is none, else what stands behind them. */
static const uint8_t *read_word(const uint8_t *at, const uint8_t *end, uint32_t *word) {
    *word = 0;
    for (const uint8_t *stop = at + 8; at < stop; at++) {
        uint8_t lower = at < end ? *at | 32 : 0;
        bool is_digit = at < end && *at >= '0' && *at <= '9';
        if (!is_digit && (lower < 'a' || lower > 'f'))
            return NULL;
        *word = *word << 4 | (uint32_t)(is_digit ? *at - '0' : lower - 'a' + 10);
    }
    return at;
}

/* Whether the name of a number stands here, with this byte behind it. */
static bool is_name(const struct names *names, size_t number, const uint8_t *at, const uint8_t *end, uint8_t behind) {
    size_t length = names->length[number], same = 0;
    if (number >= names->count || (size_t)(end - at) <= length || at[length] != behind)
        return false;
    while (same < length && at[same] == (uint8_t)names->text[number][same])
        same++;
    return same == length;
}

/* Reads a name up to this byte: mostly it is that of the last number or of the next one, else the engine knows. What stands behind
   the byte is returned; NULL where there is no such name. */
static const uint8_t *read_name(dc429 *engine, struct names *names, const uint8_t *at, const uint8_t *end, uint8_t behind) {
    size_t next = names->last + 1 < names->count ? names->last + 1 : 0;
    if (is_name(names, names->last, at, end, behind))
        return at + names->length[names->last] + 1;
    if (is_name(names, next, at, end, behind)) {
        names->last = next;
        return at + names->length[next] + 1;
    }
    const uint8_t *stop = memchr(at, behind, (size_t)(end - at));
    return stop && dc429_number(engine, names->list, at, (size_t)(stop - at), &names->last) ? stop + 1 : NULL;
}

/* Reads a line of a trace, A BUS WORD, R ROUTER, S OUTPUT or T, and returns the next one; NULL where it is no event. */
static const uint8_t *read_event(dc429 *engine, const uint8_t *at, const uint8_t *end, struct event *event) {
    struct names *names = names_of(event->kind = (char)*at++);
    if (!names)
        return event->kind == 'T' && at < end && *at == '\n' ? at + 1 : NULL;
    if (at == end || *at != ' ')
        return NULL;
    at = read_name(engine, names, at + 1, end, event->kind == 'A' ? ' ' : '\n');
    event->number = names->last;
    if (!at || event->kind != 'A')
        return at;
    at = read_word(at, end, &event->word);
    return at && at < end && *at == '\n' ? at + 1 : NULL;
}

/* Carries an event out. */
static uint32_t apply(dc429 *engine, const struct event *event, dc429_reply *reply) {
    switch (event->kind) {
    case 'A': return dc429_arrive(engine, event->number, event->word, reply);
    case 'R': return dc429_route(engine, event->number, reply);
    case 'S': return dc429_send(engine, event->number, reply);
    default: return dc429_tick(engine, reply);
    }
}

/* How far a trace was replayed. */
struct progress {
    uint64_t tick;
    unsigned long line;
};

/* Replays a part of a trace, up to the first line that is no event or is refused. */
static int replay_part(dc429 *engine, const uint8_t *part, size_t length, struct progress *progress) {
    struct event event = { 0, 0, 0 };
    dc429_reply reply;
    for (const uint8_t *at = part, *end = part + length; at < end;) {
        at = read_event(engine, at, end, &event);
        progress->line++;
        if (!at) {
            printf("unreadable line %lu\n", progress->line);
            return UNREADABLE;
        }
        if (apply(engine, &event, &reply) != DC429_OK) {
            tell_refusal(&event, &reply, progress->line);
            return REFUSED;
        }
        if (!shows_none)
            tell_reply(&event, &reply, progress->tick);
        progress->tick = reply.kind == DC429_NOW ? reply.tick : progress->tick;
    }
    return DONE;
}

/* Replays a trace while it is read, as many whole lines at a time as there is room for. */
static int replay(dc429 *engine, FILE *trace) {
    static uint8_t room[1 << 16];
    struct progress progress = { 0, 0 };
    size_t held = 0, got, whole;
    while ((got = fread(room + held, 1, sizeof room - held, trace)) > 0) {
        held += got;
        for (whole = held; whole > 0 && room[whole - 1] != '\n';)
            whole--;
        if (whole == 0 && held == sizeof room)
            break;
        int status = replay_part(engine, room, whole, &progress);
        if (status != DONE)
            return status;
        held -= whole;
        memmove(room, room + whole, held);
    }
    return ferror(trace) ? FAILED : replay_part(engine, room, held, &progress);
}

int main(int argc, char **argv) {
    shows_all = argc == 4 && strcmp(argv[3], "--all") == 0;
    shows_none = argc == 4 && strcmp(argv[3], "--quiet") == 0;
    if (argc != 3 && !shows_all && !shows_none) {
        fprintf(stderr, "usage: replay TABLES CERTIFICATE [--all | --quiet] < TRACE\n");
        return UNREADABLE;
    }
    size_t tables_length = 0, certificate_length = 0;
    uint8_t *tables = load(argv[1], &tables_length);
    uint8_t *certificate = load(argv[2], &certificate_length);
    int status = FAILED;
    if (tables && certificate) {
        dc429 engine = DC429_CLOSED;
        dc429_fault fault;
        if (dc429_open(&engine, tables, tables_length, certificate, certificate_length, &fault)) {
            take_names(&engine, &buses);
            take_names(&engine, &routers);
            take_names(&engine, &outputs);
            status = replay(&engine, stdin);
            dc429_close(&engine);
        } else {
            status = not_opened(&fault);
        }
    } else {
        fprintf(stderr, "replay: a file can't be read\n");
    }
    free(tables);
    free(certificate);
    return fflush(stdout) == 0 ? status : FAILED;
}

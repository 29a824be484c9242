/* A plain C program that does what `dc429 survey` does of a capture with no faulty line: blocks of 32 KB, a line read forward from its
   first byte, digits by a table, names of up to eight bytes as a number, streams by a table of label and SDI. It is the yardstick of
   run.sh, and no part of the product.
   usage: survey_peer LIST < capture      where LIST is what made.py prints of the tables */
#include <stdint.h>
#include <stdio.h>
#include <stdlib.h>
#include <string.h>
#include <unistd.h>

enum { BLOCK = 32768, BUSES = 64, STREAMS = 1024, SLOTS = 256 };
typedef unsigned __int128 wide;
struct bus { char name[17]; int police; uint64_t spacing, words, last, least, broken, parity, undeclared; int16_t streams[1024]; };
struct stream { char name[17]; int bus; uint64_t min, max, jitter, words, last, least, greatest, over, early; wide next, needed; };
static struct bus buses[BUSES];
static struct stream streams[STREAMS];
static struct { uint64_t key; int bus; } slots[SLOTS];
static int bus_count, stream_count;
static uint8_t value[256];
static char block[BLOCK + 64];

static unsigned slot_of(uint64_t key) { return (unsigned)(key * 0x9E3779B97F4A7C15u >> 56); }

static void tables(const char *path) {
    FILE *file = fopen(path, "r");
    char line[256], name[32], sdi[8];
    unsigned long long a, b, c, d;
    unsigned bus, low;
    while (file && fgets(line, sizeof line, file)) {
        if (sscanf(line, "bus %16s %llu %llu", name, &a, &b) == 3) {
            struct bus *row = &buses[bus_count];
            strcpy(row->name, name);
            row->spacing = a, row->police = (int)b, row->least = UINT64_MAX;
            memset(row->streams, -1, sizeof row->streams);
            uint64_t key = 0;
            for (char *at = name; *at; at++)
                key = key * 256 + (uint8_t)*at;
            unsigned slot = slot_of(key);
            while (slots[slot].key)
                slot = (slot + 1) % SLOTS;
            slots[slot].key = key, slots[slot].bus = bus_count++;
        } else if (sscanf(line, "stream %16s %u %u %7s %llu %llu %llu", name, &bus, &low, sdi, &a, &c, &d) == 7) {
            struct stream *row = &streams[stream_count];
            strcpy(row->name, name);
            row->bus = (int)bus, row->min = a, row->max = c, row->jitter = d, row->least = UINT64_MAX;
            for (unsigned at = 0; at < 4; at++)
                if (*sdi == 'a' || at == (unsigned)atoi(sdi))
                    buses[bus].streams[at << 8 | low] = (int16_t)stream_count;
            stream_count++;
        }
    }
    fclose(file);
}

static inline void take(uint64_t time, int number, uint32_t word, uint64_t line) {
    struct bus *bus = &buses[number];
    if (!__builtin_parity(word)) {
        bus->parity++;
        return;
    }
    int place = bus->streams[word & 1023];
    if (place < 0) {
        bus->undeclared++;
        return;
    }
    if (bus->words++) {
        uint64_t gap = time - bus->last;
        if (gap < bus->least)
            bus->least = gap;
        if (gap < bus->spacing && !bus->broken)
            bus->broken = line;
    }
    bus->last = time;
    struct stream *row = &streams[place];
    if (row->words++) {
        uint64_t gap = time - row->last;
        if (gap < row->least)
            row->least = gap;
        if (gap > row->greatest)
            row->greatest = gap;
        row->over += gap > row->max;
    }
    row->last = time;
    if (row->next > time) {
        wide late = row->next - time;
        if (late > row->needed)
            row->needed = late;
        if (late > row->jitter && !row->early)
            row->early = line;
    }
    row->next = (row->next > time ? row->next : time) + row->min;
}

static void number_or_none(uint64_t number, int is_there) {
    if (is_there)
        printf("%llu", (unsigned long long)number);
    else
        putchar('-');
}

static int report(void) {
    int status = 0;
    for (struct bus *row = buses; row < buses + bus_count; row++) {
        printf("bus %s words %llu parity %llu undeclared %llu spacing ", row->name, (unsigned long long)row->words,
               (unsigned long long)row->parity, (unsigned long long)row->undeclared);
        number_or_none(row->least, row->words > 1);
        if (row->police)
            puts(" policed");
        else if (row->broken)
            status = 1, printf(" broken at %llu\n", (unsigned long long)row->broken);
        else
            puts(" kept");
    }
    for (struct stream *row = streams; row < streams + stream_count; row++) {
        printf("stream %s words %llu least ", row->name, (unsigned long long)row->words);
        number_or_none(row->least, row->words > 1);
        printf(" greatest ");
        number_or_none(row->greatest, row->words > 1);
        /* (a jitter of more than 64 bits is no matter of a bench) */
        printf(" jitter %llu over %llu ", (unsigned long long)row->needed, (unsigned long long)row->over);
        if (row->early)
            status |= !buses[row->bus].police, printf("early at %llu\n", (unsigned long long)row->early);
        else
            puts(row->words ? "kept" : "silent");
    }
    return status;
}

int main(int count, char **words) {
    if (count < 2)
        return 2;
    tables(words[1]);
    memset(value, 255, sizeof value);
    for (int digit = 0; digit < 16; digit++)
        value[(uint8_t)"0123456789abcdef"[digit]] = value[(uint8_t)"0123456789ABCDEF"[digit]] = (uint8_t)digit;
    uint64_t line = 0, latest = 0;
    size_t held = 0;
    for (ssize_t got; (got = read(0, block + held, BLOCK - held)) > 0;) {
        char *at = block, *end = block + held + got;
        for (;;) {
            if (end - at < 64 && !memchr(at, '\n', (size_t)(end - at)))
                break;
            uint64_t time = 0, key = 0;
            unsigned digit;
            while ((digit = value[(uint8_t)*at]) < 10)
                time = time * 10 + digit, at++;
            if (*at++ != ' ' || time < latest)
                return 2;
            while (*at > ' ')
                key = key * 256 + (uint8_t)*at++;
            unsigned slot = slot_of(key);
            while (slots[slot].key != key)
                slot = (slot + 1) % SLOTS;
            if (*at++ != ' ' || at[8] != '\n')
                return 2;
            uint32_t word = 0, bad = 0;
            for (int place = 0; place < 8; place++)
                digit = value[(uint8_t)at[place]], bad |= digit, word = word << 4 | (digit & 15);
            if (bad > 15)
                return 2;
            at += 9, latest = time;
            take(time, slots[slot].bus, word, ++line);
        }
        held = (size_t)(end - at);
        memmove(block, at, held);
    }
    return held ? 2 : report();
}

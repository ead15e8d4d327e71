/*
 * Nothing past a length is touched, not even read: every lent range ends at a
 * page that may not be touched, or begins right after one. A touch ends the
 * program by a signal. Both ways must also give the same answers.
 */
#define _DEFAULT_SOURCE
#include "tunebriar.h"

#include <stdio.h>
#include <string.h>
#include <sys/mman.h>

enum { SIZE = 2097152, FENCE = 4096, ROOM = 65536, RECORD = 264, RECORDS = 12 };

/* Bytes between two fences. */
typedef struct {
    uint8_t *first;
    size_t room;
} yard;

static yard fenced(size_t room)
{
    uint8_t *all = mmap(NULL, room + 2 * FENCE, PROT_NONE, MAP_PRIVATE | MAP_ANONYMOUS, -1, 0);
    yard y = {all + FENCE, room};
    if (all == MAP_FAILED || mprotect(y.first, room, PROT_READ | PROT_WRITE) != 0) {
        perror("fence");
        y.first = NULL;
    }
    return y;
}

/* n bytes at one end of the yard. */
static uint8_t *lend(yard y, size_t n, int at_end)
{
    return at_end ? y.first + y.room - n : y.first;
}

static uint8_t *copied(yard y, const uint8_t *from, size_t n, int at_end)
{
    uint8_t *to = lend(y, n, at_end);
    if (n > 0)
        memcpy(to, from, n);
    return to;
}

static uint64_t sum;
/* Guard bytes that a count has changed. */
static unsigned long broken;

static void add(uint64_t number)
{
    sum = (sum ^ number) * 0x100000001B3u;
}

static void add_answer(tb_answer a)
{
    add(a.number);
    add(a.index);
    add(a.regs.status);
    add(a.meter.programs + a.meter.erases + a.meter.register_writes + a.meter.ignored);
}

static const uint8_t codes[] = {0x06, 0x04, 0x05, 0x35, 0x01, 0x03, 0x0B, 0x02, 0x20,
                                0x52, 0xD8, 0xC7, 0xB9, 0xAB, 0x90, 0x9F, 0xEE};
static const uint8_t highs[] = {0x00, 0x0F, 0x1F, 0xFF};
static const size_t counts[] = {0, 1, 2, 3, 4, 5, 6, 8, 255, 256, 260, 261, 4095, 4096, 4097};

#define COUNT(a) (sizeof(a) / sizeof((a)[0]))

/* Every code and size, at the array's beginning, middle and end. */
static void transactions(yard array, yard out, yard in, int at_end)
{
    static uint8_t bytes[4097];
    tb_regs regs = {2, 1};
    tb_meter meter = {0, 0, 0, 0};
    for (size_t c = 0; c < COUNT(codes); c++)
        for (size_t h = 0; h < COUNT(highs); h++)
            for (size_t k = 0; k < COUNT(counts); k++) {
                size_t n = counts[k];
                memset(bytes, highs[h] != 0 ? 0xFF : 0x00, sizeof bytes);
                bytes[0] = codes[c];
                bytes[1] = highs[h];
                uint8_t *o = lend(out, n, at_end);
                add_answer(tb_transact(1, regs, meter, 0, 1, array.first, SIZE, o, n,
                                       copied(in, bytes, n, at_end), n));
                for (size_t i = 0; i < n && n <= 4096; i++)
                    add(o[i]);
            }
}

/* A tape of each length, whole records or not, read at every place and replayed. */
static void tapes(yard array, yard in, int at_end)
{
    static uint8_t tape[RECORDS * RECORD];
    tb_regs regs = {2, 1};
    tb_meter meter = {0, 0, 0, 0};
    for (int r = 0; r < RECORDS; r++) {
        uint8_t *record = tape + r * RECORD;
        const uint8_t page[] = {1, 4, 0, 8, 0x02, 0x1F, 0xFF, 0x80};
        memset(record, 0, RECORD);
        if (r % 3 == 0)
            memcpy(record, "\0\1\0\10\6", 5);
        else if (r % 3 == 1)
            memcpy(record, page, sizeof page);
        else
            record[2] = 1;
    }
    for (size_t k = 0; k <= 3 * RECORDS; k++) {
        const size_t more[] = {0, 1, RECORD / 2};
        size_t n = k / 3 * RECORD + (k < 3 * RECORDS ? more[k % 3] : 0);
        const uint8_t *t = copied(in, tape, n, at_end);
        add_answer(tb_replay(1, regs, meter, array.first, SIZE, t, n));
        add_answer(tb_replay_first(1, regs, meter, array.first, SIZE, t, n, 2));
        for (uint64_t place = 0; place <= RECORDS; place++) {
            tb_record found = tb_read(t, n, place);
            add(found.kind * 1000 + found.number);
            add(found.start + found.next + found.length);
        }
    }
}

/* One lay of each length, its payload and its tape just long enough. */
static void jobs(yard in, yard payload, yard tape, int at_end)
{
    for (unsigned length = 1; length <= 4096; length += 273) {
        uint8_t job[16] = {2, 0, 0, 0, 0, 0x12, 0x34, 0xF0};
        job[10] = (uint8_t)(length / 256);
        job[11] = (uint8_t)(length % 256);
        const uint8_t *j = copied(in, job, sizeof job, at_end);
        uint8_t *p = lend(payload, length, at_end);
        memset(p, 0xA5, length);
        tb_bill bill = tb_quote(1, 0, j, sizeof job, p, length);
        uint8_t *t = lend(tape, bill.length, at_end);
        tb_tape made = tb_translate(1, 0, j, sizeof job, p, length, t, bill.length);
        add(bill.number + bill.programs);
        add(made.number + made.length);
        add(tb_translate(1, 0, j, sizeof job, p, length, t, bill.length - 1).number);
        for (uint64_t i = 0; i < made.length; i++)
            add(t[i]);
    }
}

/* Meters at a fence, and guard words on their open side. */
static void meters(yard in, int at_end)
{
    enum { GUARD = 64 };
    const uint32_t tops[] = {0, UINT32_MAX - 1, UINT32_MAX};
    const uint32_t numbers[] = {0, 6, 9, 10, 16, 17, 256, 266, UINT32_MAX};
    uint8_t *guard = lend(in, GUARD + sizeof(tb_meter), at_end) + (at_end ? 0 : sizeof(tb_meter));
    tb_meter *meter = (void *)lend(in, sizeof *meter, at_end);
    for (size_t t = 0; t < COUNT(tops); t++)
        for (size_t n = 0; n < COUNT(numbers); n++)
            for (uint32_t op = 0; op < 600; op++)
                for (uint32_t part = 0; part <= 2; part++) {
                    *meter = (tb_meter){5, 6, 7, tops[t]};
                    memset(guard, 0xA5, GUARD);
                    add(tb_count(part, meter, numbers[n], op));
                    add(meter->programs);
                    add(meter->erases);
                    add(meter->register_writes);
                    add(meter->ignored);
                    for (size_t i = 0; i < GUARD; i++)
                        broken += guard[i] != 0xA5;
                }
}

static uint64_t all(yard array, yard out, yard in, yard payload, yard tape, int at_end)
{
    sum = 0xCBF29CE484222325u;
    memset(array.first, 0xFF, SIZE);
    transactions(array, out, in, at_end);
    tapes(array, in, at_end);
    jobs(in, payload, tape, at_end);
    meters(in, at_end);
    for (size_t i = 0; i < SIZE; i++)
        add(array.first[i]);
    return sum;
}

int main(void)
{
    yard array = fenced(SIZE), out = fenced(ROOM), in = fenced(ROOM);
    yard payload = fenced(ROOM), tape = fenced(ROOM);
    if (!array.first || !out.first || !in.first || !payload.first || !tape.first)
        return 1;
    uint64_t before = all(array, out, in, payload, tape, 0);
    uint64_t after = all(array, out, in, payload, tape, 1);
    printf("sum after a fence %016llX, before one %016llX\n", (unsigned long long)before,
           (unsigned long long)after);
    printf("guard bytes changed: %lu\n", broken);
    return before != after || broken != 0;
}

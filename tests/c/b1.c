/* B1, B9 and counting from C: what a C program gets from the archive, and whether the paper says so. */
#include "tunebriar.h"

#include <stdio.h>
#include <stdlib.h>
#include <string.h>

enum { SIZE = 2097152 };

static int failed;

static void expect(const char *what, unsigned long long got, unsigned long long expected)
{
    int same = got == expected;
    printf("%-4s %s: %llX, expected %llX\n", same ? "ok" : "FAIL", what, got, expected);
    failed += !same;
}

static void expect_meter(const char *what, tb_meter got, tb_meter expected)
{
    int same = got.programs == expected.programs && got.erases == expected.erases &&
               got.register_writes == expected.register_writes && got.ignored == expected.ignored;
    printf("%-4s %s: %u %u %u %u\n", same ? "ok" : "FAIL", what, (unsigned)got.programs,
           (unsigned)got.erases, (unsigned)got.register_writes, (unsigned)got.ignored);
    failed += !same;
}

/* `06`, awake, status 0000: carried out, WEL 1, output FF; nothing is counted. */
static void b1(uint8_t *array)
{
    tb_regs regs = {0x0000, 1};
    tb_meter meter = {1, 2, 3, 4};
    const uint8_t bytes[] = {0x06};
    uint8_t out[2] = {0x55, 0x55};
    tb_answer a = tb_transact(1, regs, meter, 0, 1, array, SIZE, out, sizeof out, bytes, sizeof bytes);
    expect("B1 number", a.number, 0);
    expect("B1 index", a.index, 0);
    expect("B1 status", a.regs.status, 0x0002);
    expect("B1 awake", a.regs.awake, 1);
    expect("B1 output", out[0], 0xFF);
    expect("B1 output past n", out[1], 0x55);
    expect("B1 programs", a.meter.programs, 1);
    expect("B1 erases", a.meter.erases, 2);
    expect("B1 register writes", a.meter.register_writes, 3);
    expect("B1 ignored", a.meter.ignored, 4);
    expect("B1 count", tb_count(1, &meter, a.number, bytes[0]), 0);
    expect_meter("B1 counted", meter, a.meter);
}

/* Asleep, `05 00`: 11, output FF FF; one is added to the ignored. */
static void b9(uint8_t *array)
{
    tb_regs regs = {0x0000, 0};
    tb_meter meter = {0, 0, 0, 0};
    const uint8_t bytes[] = {0x05, 0x00};
    uint8_t out[2] = {0x55, 0x55};
    tb_answer a = tb_transact(1, regs, meter, 0, 1, array, SIZE, out, sizeof out, bytes, sizeof bytes);
    expect("B9 number", a.number, 11);
    expect("B9 status", a.regs.status, 0x0000);
    expect("B9 awake", a.regs.awake, 0);
    expect("B9 output 0", out[0], 0xFF);
    expect("B9 output 1", out[1], 0xFF);
    expect("B9 ignored", a.meter.ignored, 1);
    expect("B9 count", tb_count(1, &meter, a.number, bytes[0]), 0);
    expect_meter("B9 counted", meter, a.meter);
}

/* Null pointers where the length is 0, and the structs that come back by value. */
static void none(uint8_t *array)
{
    tb_regs busy = {0x0207, 1};
    tb_meter meter = {0, 0, 0, 0};
    expect("no byte", tb_transact(1, busy, meter, 0, 1, array, SIZE, NULL, 0, NULL, 0).number, 12);
    expect("no array", tb_transact(1, busy, meter, 0, 1, NULL, 0, NULL, 0, NULL, 0).number, 2);
    expect("no tape, status", tb_replay(1, busy, meter, array, SIZE, NULL, 0).regs.status, 0x0207);
    expect("no tape, kind", tb_read(NULL, 0, UINT64_MAX).kind, 3);
    expect("no tape, next", tb_read(NULL, 0, UINT64_MAX).next, UINT64_MAX);
    expect("finish, status", tb_finish(1, busy).regs.status, 0x0204);
    expect("finish, part 257", tb_finish(257, busy).number, 1);
}

/* Each count by itself, then the two refusals, which leave the meter. */
static void counts(void)
{
    tb_meter meter = {1, 2, 3, UINT32_MAX - 1};
    tb_count(1, &meter, 0, 0x02);
    tb_count(1, &meter, 0, 0x60);
    tb_count(1, &meter, 0, 0x01);
    expect_meter("one each", meter, (tb_meter){2, 3, 4, UINT32_MAX - 1});
    expect("op 258", tb_count(1, &meter, 0, 258), 0);
    expect("a refused one", tb_count(1, &meter, 6, 0x02), 0);
    expect_meter("nothing more", meter, (tb_meter){2, 3, 4, UINT32_MAX - 1});
    expect("one ignored", tb_count(1, &meter, 16, 0x02), 0);
    expect("full, program", tb_count(1, &meter, 0, 0x02), 7);
    expect("full, ignored", tb_count(1, &meter, 10, 0x02), 7);
    expect("full, part 257", tb_count(257, &meter, 0, 0x02), 1);
    expect_meter("full, untouched", meter, (tb_meter){2, 3, 4, UINT32_MAX});
}

int main(void)
{
    uint8_t *array = malloc(SIZE);
    if (array == NULL) {
        fputs("no room for the array\n", stderr);
        return 1;
    }
    memset(array, 0xFF, SIZE);
    b1(array);
    b9(array);
    none(array);
    counts();
    free(array);
    return failed != 0;
}

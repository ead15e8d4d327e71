/*
 * Tunebriar: a proved emulator and job translator for the FM25Q16 serial flash
 * chip, as document 01 has it. `sh host/library` builds libtunebriar.a,
 * which exports these nine functions and nothing else.
 *
 * Pointers. What follows no contract can say, so the caller must see to it:
 *   - each pointer to bytes is valid for the length handed in after it;
 *   - a lent range that is written (`array`, `out`, and `tape` of tb_translate)
 *     overlaps no other range of the same call;
 *   - a null pointer to bytes is allowed where the length is 0;
 *   - `meter` of tb_count, the one struct that is lent, points to a valid,
 *     aligned tb_meter that overlaps nothing, and is never null.
 * No pointer is kept after the call, and nothing past a length is touched.
 *
 * Numbers. Any number may be handed to any function. Every number is judged at
 * its full width before it is narrowed: part 257 is refusal 1, leftover 256 is
 * refusal 5, setting 256 is refusal 21, op 258 is not 02.
 *
 * Refusals. A refusal changes nothing that was lent.
 */
#ifndef TUNEBRIAR_H
#define TUNEBRIAR_H

#include <stddef.h>
#include <stdint.h>

#ifdef __cplusplus
extern "C" {
#endif

/*
 * The registers, kept by the caller: `status` is S15 to S0, `awake` 1 or, when
 * asleep, 0. They are well formed when S10 to S15 are 0, BUSY (S0) implies WEL
 * (S1), and BUSY implies awake. All else is refusal 3, and so is a status over
 * 65,535 or an awake over 1.
 */
typedef struct {
    uint32_t status, awake;
} tb_regs;

/* The meter, kept by the caller: programs, erases, register writes, ignored. */
typedef struct {
    uint32_t programs, erases, register_writes, ignored;
} tb_meter;

/*
 * In every answer:
 *   number   0: carried out, or served;
 *            10 to 16: the verdict of an ignored transaction (tb_transact only);
 *            1 to 7, 20 to 26, 30, 31: the refusal.
 *   index    the first bad record's for 22 to 25 and 31, else 0.
 * Any other number of an answer is 0 unless said.
 */

/*
 * Of a transaction or a replay: the registers and the meter afterwards. On a
 * refusal they are those that were handed in, as they were.
 */
typedef struct {
    uint32_t number;
    uint64_t index;
    tb_regs regs;
    tb_meter meter;
} tb_answer;

/* Of a finish event or a power cycle. On a refusal `regs` as handed in. */
typedef struct {
    uint32_t number;
    uint64_t index;
    tb_regs regs;
} tb_event;

/* Of a translation: the tape's own length in bytes. */
typedef struct {
    uint32_t number;
    uint64_t index, length;
} tb_tape;

/* Of a quote: the rises of three counts, and the tape's length in bytes. */
typedef struct {
    uint32_t number;
    uint64_t index;
    uint32_t programs, erases, register_writes;
    uint64_t length;
} tb_bill;

/*
 * Of a read at a place of a tape.
 *   kind     0 transaction, 1 finish, 2 power cycle, 3 the end, 4 a fault;
 *   number   30 or 31 at a fault, else 0;
 *   length, leftover, wp, start
 *            of a transaction, else 0: its byte count, its leftover bits, 1
 *            where /WP is high, and where its bytes begin in the tape;
 *   next     the place after a record; the same place at the end or a fault.
 */
typedef struct {
    uint32_t kind, number, length, leftover, wp;
    uint64_t start, next;
} tb_record;

/*
 * One transaction: n bytes clocked in, then `leftover` bits (0 to 7), at the
 * level `wp` of /WP: 0 is low, anything else high. Unless refused, the first n
 * bytes of `out` are written, and no other. Refusals 1 to 7, in this order.
 */
tb_answer tb_transact(uint32_t part, tb_regs regs, tb_meter meter, uint32_t leftover, uint32_t wp,
                      uint8_t *array, size_t array_len, uint8_t *out, size_t out_len,
                      const uint8_t *bytes, size_t n);

/* What the chip was busy with is done. Refusals 1, 3. */
tb_event tb_finish(uint32_t part, tb_regs regs);

/* Power off and on again. Refusals 1, 3. */
tb_event tb_power_cycle(uint32_t part, tb_regs regs);

/*
 * Brings the caller's meter up to date where it lies, by what a transaction
 * answered: its `number`, and the first byte `op` that it was sent (any number
 * if none was). After 0, op 02 adds one to programs; 20, 52, D8, C7 or 60 one to
 * erases; 01 one to register_writes. After 10 to 16, one more is ignored.
 * Nothing else counts. So the meter handed to tb_transact becomes the one that
 * it answers.
 * The answer is 0 or the refusal. Refusals 1, 7.
 */
uint32_t tb_count(uint32_t part, tb_meter *meter, uint32_t number, uint32_t op);

/* Plays a tape and drops the outputs. Refusals 1, 2, 3, 30, 31, 7, all before the first record. */
tb_answer tb_replay(uint32_t part, tb_regs regs, tb_meter meter,
                    uint8_t *array, size_t array_len, const uint8_t *tape, size_t tape_len);

/* Makes every check of tb_replay on the whole tape, then plays its first k records, or all if it has fewer. */
tb_answer tb_replay_first(uint32_t part, tb_regs regs, tb_meter meter,
                          uint8_t *array, size_t array_len, const uint8_t *tape, size_t tape_len, uint64_t k);

/*
 * Translates a job with its payload, from the start setting `setting`, into
 * `tape`. On success the first `length` bytes of `tape` are written, and no
 * other. Refusals 1, 20, 21, then step by step 22 to 25, then 26.
 */
tb_tape tb_translate(uint32_t part, uint32_t setting, const uint8_t *job, size_t job_len,
                     const uint8_t *payload, size_t payload_len, uint8_t *tape, size_t tape_len);

/* The bill beforehand, from the job alone. The refusals of tb_translate but 26. */
tb_bill tb_quote(uint32_t part, uint32_t setting, const uint8_t *job, size_t job_len,
                 const uint8_t *payload, size_t payload_len);

/* The record at `place`, counted from 0. Any place up to 2^64 - 1 may be asked. */
tb_record tb_read(const uint8_t *tape, size_t tape_len, uint64_t place);

#ifdef __cplusplus
}
#endif

#endif

/*
 * The header alone, as C and as C++: it compiles, and the structs lie as
 * host/tunebriar/src/ffi.rs has them.
 */
#include "tunebriar.h"

#ifdef __cplusplus
#define LAYOUT(fact) static_assert(fact, #fact)
#define ALIGNMENT(type) alignof(type)
#else
#define LAYOUT(fact) _Static_assert(fact, #fact)
#define ALIGNMENT(type) _Alignof(type)
#endif

LAYOUT(sizeof(tb_regs) == 8 && offsetof(tb_regs, awake) == 4);
LAYOUT(sizeof(tb_meter) == 16 && offsetof(tb_meter, ignored) == 12);
LAYOUT(offsetof(tb_meter, erases) == 4 && offsetof(tb_meter, register_writes) == 8);
LAYOUT(ALIGNMENT(tb_meter) == 4);
LAYOUT(sizeof(tb_answer) == 40 && offsetof(tb_answer, index) == 8);
LAYOUT(offsetof(tb_answer, regs) == 16 && offsetof(tb_answer, meter) == 24);
LAYOUT(sizeof(tb_event) == 24 && offsetof(tb_event, regs) == 16);
LAYOUT(sizeof(tb_tape) == 24 && offsetof(tb_tape, length) == 16);
LAYOUT(sizeof(tb_bill) == 40 && offsetof(tb_bill, programs) == 16);
LAYOUT(offsetof(tb_bill, register_writes) == 24 && offsetof(tb_bill, length) == 32);
LAYOUT(sizeof(tb_record) == 40 && offsetof(tb_record, wp) == 16);
LAYOUT(offsetof(tb_record, start) == 24 && offsetof(tb_record, next) == 32);

/*
 * The members of the limits and of the library's answers are those that the header names. Makes each of the five calls
 * that take a module on ones whose answers have different numbers in their members, and looks at every member by name:
 * a library whose structs have two members in another order gives wrong ones. Exits with 1 if any is wrong. For the
 * sixth call, which takes tables, tables.c does so.
 *
 * Where refusal is 0 the header says nothing of place, so it is looked at in refused calls only.
 */
#include "madsjirn.h"

#include "expect.h"
#include "file_builder.h"

#include <string.h>

ASSERT_MEMBER(madsjirn_limits, instructions, 0, 4);
ASSERT_MEMBER(madsjirn_limits, targets, 4, 4);
_Static_assert(sizeof(madsjirn_limits) == 8, "size of madsjirn_limits");

ASSERT_MEMBER(madsjirn_machine, registers, 0, 32);
ASSERT_MEMBER(madsjirn_machine, pc, 32, 2);
_Static_assert(sizeof(((madsjirn_machine *)0)->registers[0]) == 4, "size of a register");
_Static_assert(sizeof(madsjirn_machine) == 36, "size of madsjirn_machine");

ASSERT_MEMBER(madsjirn_module, refusal, 0, 4);
ASSERT_MEMBER(madsjirn_module, place, 4, 4);
ASSERT_MEMBER(madsjirn_module, base, 8, 4);
ASSERT_MEMBER(madsjirn_module, size, 12, 4);
ASSERT_MEMBER(madsjirn_module, guard, 16, 4);
ASSERT_MEMBER(madsjirn_module, instructions, 20, 4);
ASSERT_MEMBER(madsjirn_module, targets, 24, 4);
_Static_assert(sizeof(madsjirn_module) == 28, "size of madsjirn_module");

ASSERT_MEMBER(madsjirn_verdict, refusal, 0, 4);
ASSERT_MEMBER(madsjirn_verdict, place, 4, 4);
ASSERT_MEMBER(madsjirn_verdict, instructions, 8, 4);
ASSERT_MEMBER(madsjirn_verdict, targets, 12, 4);
_Static_assert(sizeof(madsjirn_verdict) == 16, "size of madsjirn_verdict");

ASSERT_MEMBER(madsjirn_answer, refusal, 0, 4);
ASSERT_MEMBER(madsjirn_answer, place, 4, 4);
ASSERT_MEMBER(madsjirn_answer, ending, 8, 4);
ASSERT_MEMBER(madsjirn_answer, steps, 16, 8);
_Static_assert(sizeof(madsjirn_answer) == 24, "size of madsjirn_answer");

enum {
    BASE = 0x20000000,
    SIZE = 4096,
    GUARD = 256,
    OFFSET = 1000, /* where the region begins in the host's memory */
    MEMORY_LENGTH = 10000,
    SUMS = 4,      /* the index of the first of eight instructions, each of which adds to its own register */
    INSTRUCTIONS = SUMS + 8 + 1,
    TARGETS = 3,
    GOOD_JUMP = 12, /* the opcode of instruction 3 */
    BAD_JUMP = 16,  /* an opcode that there is not */
    SMALL_GUARD = 3 /* too small for instruction 1, with any claim that holds */
};

static uint8_t memory[MEMORY_LENGTH];

/* What register r holds before a run. */
static uint32_t register_before(int r) {
    return 0x01020304u * (uint32_t)(r + 1);
}

/* What the module adds to register r. */
static uint32_t summand(int r) {
    return 0x1000u + (uint32_t)r;
}

/* A machine with a different number in every member. */
static madsjirn_machine machine_at(uint16_t pc) {
    madsjirn_machine machine = {{0}, pc};
    for (int r = 0; r < 8; r++) {
        machine.registers[r] = register_before(r);
    }
    return machine;
}

static void expect_machine(const char *call, const madsjirn_machine *machine, const madsjirn_machine *due) {
    static const char *const names[8] = {"r0", "r1", "r2", "r3", "r4", "r5", "r6", "r7"};
    for (int r = 0; r < 8; r++) {
        expect(call, names[r], machine->registers[r], due->registers[r]);
    }
    EXPECT(call, *machine, pc, due->pc);
}

/* Document 01's loop, and after it eight sums and a halt. */
static file_builder module_with(uint32_t guard, uint8_t jump) {
    file_builder file = {{0}, 0};
    put_header(&file, 1, 12);
    put_u32(&file, BASE);
    put_u32(&file, SIZE);
    put_u32(&file, guard);
    put_header(&file, 2, INSTRUCTIONS * 8);
    put_instruction(&file, 7, 1, 0, 0, 0);    /* 0 guard r1 */
    put_instruction(&file, 10, 0, 1, 4, 0);   /* 1 load r0, r1, width 4, imm 0 */
    put_instruction(&file, 4, 1, 0, 0, 4);    /* 2 addi r1, 4 */
    put_instruction(&file, jump, 0, 0, 0, 1); /* 3 jump 1 */
    for (int r = 0; r < 8; r++) {
        put_instruction(&file, 4, (uint8_t)r, 0, 0, summand(r)); /* 4 + r addi r, summand */
    }
    put_instruction(&file, 0, 0, 0, 0, 0); /* 12 halt */
    put_header(&file, 3, TARGETS * 68);
    put_target(&file, 0, 1, 0, UINT32_MAX);                   /* indirect */
    put_target(&file, 1, 0, BASE, (uint32_t)BASE + SIZE + 3); /* direct: DB to DL + 4 */
    put_target(&file, SUMS, 1, 0, UINT32_MAX);                /* indirect */
    return file;
}

static void look_at_read(void) {
    const char *call = "madsjirn_read, readable";
    file_builder file = module_with(GUARD, GOOD_JUMP);
    madsjirn_module module = madsjirn_read(file.bytes, file.length);
    EXPECT(call, module, refusal, MADSJIRN_ACCEPTED);
    EXPECT(call, module, base, BASE);
    EXPECT(call, module, size, SIZE);
    EXPECT(call, module, guard, GUARD);
    EXPECT(call, module, instructions, INSTRUCTIONS);
    EXPECT(call, module, targets, TARGETS);

    call = "madsjirn_read, refused";
    file = module_with(GUARD, BAD_JUMP);
    module = madsjirn_read(file.bytes, file.length);
    EXPECT(call, module, refusal, MADSJIRN_BAD_INSTRUCTION);
    EXPECT(call, module, place, 3);
    EXPECT(call, module, base, 0);
    EXPECT(call, module, size, 0);
    EXPECT(call, module, guard, 0);
    EXPECT(call, module, instructions, 0);
    EXPECT(call, module, targets, 0);
}

static void expect_accepted(const char *call, madsjirn_verdict verdict) {
    EXPECT(call, verdict, refusal, MADSJIRN_ACCEPTED);
    EXPECT(call, verdict, instructions, INSTRUCTIONS);
    EXPECT(call, verdict, targets, TARGETS);
}

static void expect_verdict(const char *call, madsjirn_verdict verdict, uint32_t refusal, uint32_t place) {
    EXPECT(call, verdict, refusal, refusal);
    EXPECT(call, verdict, place, place);
    EXPECT(call, verdict, instructions, 0);
    EXPECT(call, verdict, targets, 0);
}

/* Limits of which one or both are below the module's counts, or the two are in the wrong order. */
static const madsjirn_limits over[] = {
    {INSTRUCTIONS - 1, TARGETS},
    {INSTRUCTIONS, TARGETS - 1},
    {INSTRUCTIONS - 1, TARGETS - 1},
    {TARGETS, INSTRUCTIONS},
    {0, UINT32_MAX},
    {UINT32_MAX, 0},
};
enum { OVERS = sizeof over / sizeof over[0] };

/* Limits that the module keeps. */
static const madsjirn_limits within[] = {
    {4096, 256},
    {512, 32},
    {INSTRUCTIONS, TARGETS},
    {UINT32_MAX, TARGETS},
    {INSTRUCTIONS, UINT32_MAX},
};
enum { WITHINS = sizeof within / sizeof within[0] };

static void look_at_limits(void) {
    const madsjirn_limits box = madsjirn_box();
    EXPECT("madsjirn_box", box, instructions, 4096);
    EXPECT("madsjirn_box", box, targets, 256);
    const madsjirn_limits plate = madsjirn_plate();
    EXPECT("madsjirn_plate", plate, instructions, 512);
    EXPECT("madsjirn_plate", plate, targets, 32);
}

static void look_at_verify(void) {
    file_builder file = module_with(GUARD, GOOD_JUMP);
    for (int i = 0; i < WITHINS; i++) {
        expect_accepted("madsjirn_verify, accepted", madsjirn_verify(within[i], file.bytes, file.length));
    }
    for (int i = 0; i < OVERS; i++) {
        expect_verdict("madsjirn_verify, over", madsjirn_verify(over[i], file.bytes, file.length), MADSJIRN_OVER_PLATE,
                       0);
    }
    file = module_with(GUARD, BAD_JUMP);
    expect_verdict("madsjirn_verify, file refused", madsjirn_verify(over[0], file.bytes, file.length),
                   MADSJIRN_BAD_INSTRUCTION, 3);
    file = module_with(SMALL_GUARD, GOOD_JUMP);
    expect_verdict("madsjirn_verify, code refused", madsjirn_verify(within[0], file.bytes, file.length),
                   MADSJIRN_WILD_ACCESS, 1);
    expect_verdict("madsjirn_verify, over and code bad", madsjirn_verify(over[0], file.bytes, file.length),
                   MADSJIRN_OVER_PLATE, 0);
}

static void look_at_work_out(void) {
    file_builder file = module_with(GUARD, GOOD_JUMP);
    for (int i = 0; i < OVERS; i++) {
        expect_verdict("madsjirn_work_out, over", madsjirn_work_out(over[i], file.bytes, file.length),
                       MADSJIRN_OVER_PLATE, 0);
    }
    for (int i = 0; i < WITHINS; i++) {
        expect_accepted("madsjirn_work_out, accepted", madsjirn_work_out(within[i], file.bytes, file.length));
    }
    file = module_with(GUARD, BAD_JUMP);
    expect_verdict("madsjirn_work_out, file refused", madsjirn_work_out(over[0], file.bytes, file.length),
                   MADSJIRN_BAD_INSTRUCTION, 3);
    file = module_with(SMALL_GUARD, GOOD_JUMP);
    expect_verdict("madsjirn_work_out, code refused", madsjirn_work_out(within[0], file.bytes, file.length),
                   MADSJIRN_WILD_ACCESS, 1);
}

static void expect_made(const char *call, madsjirn_answer answer, uint32_t ending, uint64_t steps) {
    EXPECT(call, answer, refusal, MADSJIRN_ACCEPTED);
    EXPECT(call, answer, ending, ending);
    EXPECT(call, answer, steps, steps);
}

static void expect_refused(const char *call, madsjirn_answer answer, uint32_t refusal, uint32_t place) {
    EXPECT(call, answer, refusal, refusal);
    EXPECT(call, answer, place, place);
    EXPECT(call, answer, ending, MADSJIRN_REFUSED);
    EXPECT(call, answer, steps, 0);
}

/* From r1 = 0 to the trap; r0 is then the region's last word. */
static void look_at_loop(void) {
    const char *call = "madsjirn_run, the loop";
    const uint8_t last_word[4] = {0x44, 0x33, 0x22, 0x11};
    const file_builder file = module_with(GUARD, GOOD_JUMP);
    madsjirn_machine machine = machine_at(0);
    machine.registers[1] = 0;
    madsjirn_machine due = machine;
    due.registers[0] = 0x11223344;
    due.registers[1] = (uint32_t)BASE + SIZE;
    due.pc = 1;
    memcpy(memory + OFFSET + SIZE - sizeof last_word, last_word, sizeof last_word);
    expect_made(call,
                madsjirn_run(madsjirn_box(), file.bytes, file.length, &machine, memory, MEMORY_LENGTH, OFFSET,
                             UINT64_MAX),
                MADSJIRN_TRAPPED, 3074);
    expect_machine(call, &machine, &due);
}

/* All eight sums in one run: every member of the machine changes. */
static void look_at_sums(void) {
    const char *call = "madsjirn_run, the sums";
    const file_builder file = module_with(GUARD, GOOD_JUMP);
    madsjirn_machine machine = machine_at(SUMS);
    madsjirn_machine due = machine_at(SUMS + 8);
    for (int r = 0; r < 8; r++) {
        due.registers[r] += summand(r);
    }
    expect_made(call,
                madsjirn_run(madsjirn_plate(), file.bytes, file.length, &machine, memory, MEMORY_LENGTH, OFFSET, 8),
                MADSJIRN_OUT_OF_BUDGET, 8);
    expect_machine(call, &machine, &due);
}

/* One sum for each step: that register changes, and pc. */
static void look_at_steps(void) {
    const char *call = "madsjirn_step, a sum";
    const file_builder file = module_with(GUARD, GOOD_JUMP);
    for (int r = 0; r < 8; r++) {
        madsjirn_machine machine = machine_at((uint16_t)(SUMS + r));
        madsjirn_machine due = machine_at((uint16_t)(SUMS + r + 1));
        due.registers[r] += summand(r);
        expect_made(call,
                    madsjirn_step(within[2], file.bytes, file.length, &machine, memory, MEMORY_LENGTH, OFFSET),
                    MADSJIRN_OUT_OF_BUDGET, 1);
        expect_machine(call, &machine, &due);
    }
}

static void look_at_refused_runs(void) {
    file_builder file = module_with(GUARD, BAD_JUMP);
    const madsjirn_machine before = machine_at(SUMS);
    madsjirn_machine machine = before;
    const char *call = "madsjirn_run, refused";
    expect_refused(call, madsjirn_run(over[0], file.bytes, file.length, &machine, memory, MEMORY_LENGTH, OFFSET, 8),
                   MADSJIRN_BAD_INSTRUCTION, 3);
    expect_machine(call, &machine, &before);
    call = "madsjirn_step, refused";
    expect_refused(call, madsjirn_step(over[0], file.bytes, file.length, &machine, memory, MEMORY_LENGTH, OFFSET),
                   MADSJIRN_BAD_INSTRUCTION, 3);
    expect_machine(call, &machine, &before);

    file = module_with(GUARD, GOOD_JUMP);
    for (int i = 0; i < OVERS; i++) {
        call = "madsjirn_run, over";
        expect_refused(call, madsjirn_run(over[i], file.bytes, file.length, &machine, memory, MEMORY_LENGTH, OFFSET, 8),
                       MADSJIRN_OVER_PLATE, 0);
        expect_machine(call, &machine, &before);
        call = "madsjirn_step, over";
        expect_refused(call, madsjirn_step(over[i], file.bytes, file.length, &machine, memory, MEMORY_LENGTH, OFFSET),
                       MADSJIRN_OVER_PLATE, 0);
        expect_machine(call, &machine, &before);
    }
}

int main(void) {
    look_at_limits();
    look_at_read();
    look_at_verify();
    look_at_work_out();
    look_at_loop();
    look_at_sums();
    look_at_steps();
    look_at_refused_runs();
    return looked_at_all();
}

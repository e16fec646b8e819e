/*
 * Document 01's loop, from C: verifies it for the box and for the plate, runs it, steps it, shows refusals, has its
 * claims worked out, and writes it from its tables. Prints what it found and exits with 1 if anything differs from what
 * the documents say.
 */
#include "madsjirn.h"

#include "file_builder.h"

#include <inttypes.h>
#include <stdbool.h>
#include <stdio.h>
#include <string.h>

enum {
    BASE = 0x20000000,
    SIZE = 4096,
    GUARD = 256,
    SMALL_GUARD = 4,    /* just enough for the claim that is worked out */
    OFFSET = 1000,      /* where the region begins in the host's memory */
    MEMORY_LENGTH = 10000
};

static bool failed = false;

static void expect(bool holds, const char *what) {
    printf("  %s %s\n", holds ? "ok   " : "WRONG", what);
    failed = failed || !holds;
}

/* The loop with guard zones of that many bytes and a claim for r1 at its direct target. */
static file_builder loop_module(uint32_t guard, uint32_t r1_lowest, uint32_t r1_highest) {
    file_builder file = {{0}, 0};
    put_header(&file, 1, 12);
    put_u32(&file, BASE);
    put_u32(&file, SIZE);
    put_u32(&file, guard);
    put_header(&file, 2, 4 * 8);
    put_instruction(&file, 7, 1, 0, 0, 0);  /* 0 guard r1 */
    put_instruction(&file, 10, 0, 1, 4, 0); /* 1 load r0, r1, width 4, imm 0 */
    put_instruction(&file, 4, 1, 0, 0, 4);  /* 2 addi r1, 4 */
    put_instruction(&file, 12, 0, 0, 0, 1); /* 3 jump 1 */
    put_header(&file, 3, 2 * 68);
    put_target(&file, 0, 1, 0, UINT32_MAX);           /* indirect */
    put_target(&file, 1, 0, r1_lowest, r1_highest); /* direct */
    return file;
}

/* The host's memory: the region, and bytes around it that no run may change. */
static uint8_t memory[MEMORY_LENGTH];

static uint8_t host_byte(size_t i) {
    return (uint8_t)(i * 7 + 3);
}

static void fill_memory(void) {
    for (size_t i = 0; i < MEMORY_LENGTH; i++) {
        memory[i] = host_byte(i);
    }
}

/* The loop stores nothing, so the region too stays as the host filled it. */
static bool memory_is_as_filled(void) {
    for (size_t i = 0; i < MEMORY_LENGTH; i++) {
        if (memory[i] != host_byte(i)) {
            return false;
        }
    }
    return true;
}

static bool same_machine(const madsjirn_machine *one, const madsjirn_machine *other) {
    return memcmp(one->registers, other->registers, sizeof one->registers) == 0 && one->pc == other->pc;
}

static void show_reading(const file_builder *file) {
    madsjirn_module module = madsjirn_read(file->bytes, file->length);
    printf("read: base %08x, size %u, guard %u, %u instructions, %u targets\n", (unsigned)module.base,
           (unsigned)module.size, (unsigned)module.guard, (unsigned)module.instructions, (unsigned)module.targets);
    expect(module.refusal == MADSJIRN_ACCEPTED && module.base == BASE && module.size == SIZE &&
               module.guard == GUARD && module.instructions == 4 && module.targets == 2,
           "readable, with the layout and counts that were written");

    madsjirn_verdict verdict = madsjirn_verify(madsjirn_box(), file->bytes, file->length);
    printf("verify: refusal %u, %u instructions, %u targets\n", (unsigned)verdict.refusal,
           (unsigned)verdict.instructions, (unsigned)verdict.targets);
    expect(verdict.refusal == MADSJIRN_ACCEPTED && verdict.instructions == 4 && verdict.targets == 2,
           "accepted 4 2");
}

/* One instruction more than the plate holds, and the loop, which is within both limits. */
static void show_plate(const file_builder *file) {
    static const madsjirn_instruction halts[513];
    madsjirn_target target = {.index = 0, .kind = MADSJIRN_INDIRECT};
    for (int r = 0; r < 8; r++) {
        target.claim[r].highest = UINT32_MAX; /* anything */
    }
    uint8_t larger[21 + 513 * 8 + 68];
    madsjirn_written written = madsjirn_write(BASE, SIZE, GUARD, halts, 513, &target, 1, larger, sizeof larger);
    expect(written.refusal == MADSJIRN_ACCEPTED, "513 instructions are written");
    madsjirn_verdict verdict = madsjirn_verify(madsjirn_plate(), larger, sizeof larger);
    printf("verify for the plate, 513 instructions: refused %u %u\n", (unsigned)verdict.refusal,
           (unsigned)verdict.place);
    expect(verdict.refusal == MADSJIRN_OVER_PLATE && verdict.place == 0, "over plate at 0");
    expect(madsjirn_verify(madsjirn_box(), larger, sizeof larger).refusal == MADSJIRN_UNREACHABLE,
           "not so for the box, which judges the code");
    expect(madsjirn_verify(madsjirn_plate(), file->bytes, file->length).refusal == MADSJIRN_ACCEPTED,
           "the loop is accepted for the plate too");
}

static void show_run(const file_builder *file) {
    madsjirn_machine machine = {{0}, 0};
    fill_memory();
    madsjirn_answer answer =
        madsjirn_run(madsjirn_box(), file->bytes, file->length, &machine, memory, MEMORY_LENGTH, OFFSET, UINT64_MAX);
    printf("run: ending %u, %" PRIu64 " steps, pc %u, r1 %08x\n", (unsigned)answer.ending, answer.steps,
           (unsigned)machine.pc, (unsigned)machine.registers[1]);
    expect(answer.refusal == MADSJIRN_ACCEPTED && answer.ending == MADSJIRN_TRAPPED && answer.steps == 3074,
           "trapped after 3,074 steps");
    expect(machine.pc == 1 && machine.registers[1] == (uint32_t)BASE + SIZE, "pc 1, r1 20001000");
    expect(memory_is_as_filled(), "no byte of memory changed");
}

static void show_step(const file_builder *file) {
    madsjirn_machine machine = {{0, 0x12345678}, 0};
    fill_memory();
    madsjirn_answer answer =
        madsjirn_step(madsjirn_box(), file->bytes, file->length, &machine, memory, MEMORY_LENGTH, OFFSET);
    printf("step: ending %u, %" PRIu64 " steps, pc %u, r1 %08x\n", (unsigned)answer.ending, answer.steps,
           (unsigned)machine.pc, (unsigned)machine.registers[1]);
    expect(answer.refusal == MADSJIRN_ACCEPTED && answer.ending == MADSJIRN_OUT_OF_BUDGET && answer.steps == 1,
           "one step made, and the run could go on");
    expect(machine.pc == 1 && machine.registers[1] == BASE + 0x678, "pc 1, r1 guarded");
    expect(memory_is_as_filled(), "no byte of memory changed");
}

static void show_refused_file(void) {
    const uint8_t nothing[1] = {0};
    madsjirn_verdict verdict = madsjirn_verify(madsjirn_box(), nothing, 0);
    printf("verify of an empty file: refused %u %u\n", (unsigned)verdict.refusal, (unsigned)verdict.place);
    expect(verdict.refusal == MADSJIRN_TRUNCATED && verdict.place == 0 && verdict.instructions == 0 &&
               verdict.targets == 0,
           "truncated at 0");
}

static void show_refused_run(const file_builder *file, size_t offset) {
    const madsjirn_machine before = {{1, 2, 3, 4, 5, 6, 7, 8}, 3};
    madsjirn_machine machine = before;
    fill_memory();
    madsjirn_answer answer =
        madsjirn_run(madsjirn_box(), file->bytes, file->length, &machine, memory, MEMORY_LENGTH, offset, 100);
    printf("run at offset %zu: refused %u %u\n", offset, (unsigned)answer.refusal, (unsigned)answer.place);
    expect(answer.refusal == MADSJIRN_NO_ROOM && answer.place == 0, "no room at 0");
    expect(answer.ending == MADSJIRN_REFUSED && answer.steps == 0, "ending refused, 0 steps");
    expect(same_machine(&machine, &before) && memory_is_as_filled(), "machine and memory unchanged");
}

static bool same_bytes(const file_builder *one, const file_builder *other) {
    return one->length == other->length && memcmp(one->bytes, other->bytes, one->length) == 0;
}

/* A claim that is none, since its lowest value exceeds the highest: whoever built the file has no tool for claims. */
static void show_claims(void) {
    file_builder file = loop_module(SMALL_GUARD, UINT32_MAX, 0);
    expect(madsjirn_verify(madsjirn_box(), file.bytes, file.length).refusal == MADSJIRN_BAD_TARGET,
           "refused with no claim for r1");

    /* DB to DL + 1: after a load that is not trapped r1 is at most DL - 3. */
    const file_builder due = loop_module(SMALL_GUARD, BASE, (uint32_t)BASE + SIZE);
    madsjirn_verdict verdict = madsjirn_work_out(madsjirn_box(), file.bytes, file.length);
    printf("work out: refusal %u, %u instructions, %u targets\n", (unsigned)verdict.refusal,
           (unsigned)verdict.instructions, (unsigned)verdict.targets);
    expect(verdict.refusal == MADSJIRN_ACCEPTED && verdict.instructions == 4 && verdict.targets == 2,
           "accepted 4 2");
    expect(same_bytes(&file, &due), "r1 is claimed from 20000000 to 20001000, all other bytes are as they were");
    expect(madsjirn_verify(madsjirn_box(), file.bytes, file.length).refusal == MADSJIRN_ACCEPTED,
           "accepted by verify too");

    file = loop_module(SMALL_GUARD - 1, UINT32_MAX, 0);
    const file_builder before = file;
    verdict = madsjirn_work_out(madsjirn_box(), file.bytes, file.length);
    printf("work out with a guard too small: refused %u %u\n", (unsigned)verdict.refusal, (unsigned)verdict.place);
    expect(verdict.refusal == MADSJIRN_WILD_ACCESS && verdict.place == 1, "wild access at 1");
    expect(same_bytes(&file, &before), "all bytes are as they were");
}

/* The loop from its tables. docs/MODULES.md shows this function. */
static madsjirn_written write_loop(uint8_t *buffer, size_t buffer_length) {
    static const madsjirn_instruction instructions[4] = {
        {.op = MADSJIRN_OP_GUARD, .a = 1},
        {.op = MADSJIRN_OP_LOAD, .a = 0, .b = 1, .w = 4, .imm = 0},
        {.op = MADSJIRN_OP_ADDI, .a = 1, .imm = 4},
        {.op = MADSJIRN_OP_JUMP, .imm = 1},
    };
    madsjirn_target targets[2] = {
        {.index = 0, .kind = MADSJIRN_INDIRECT},
        {.index = 1, .kind = MADSJIRN_DIRECT},
    };
    for (int r = 0; r < 8; r++) {
        targets[0].claim[r].highest = targets[1].claim[r].highest = UINT32_MAX; /* anything */
    }
    targets[1].claim[1] = (madsjirn_range){.lowest = 0x20000000, .highest = 0x20001003};
    return madsjirn_write(0x20000000, 4096, 256, instructions, 4, targets, 2, buffer, buffer_length);
}

static void show_writing(const file_builder *file) {
    uint8_t buffer[MADSJIRN_LONGEST_FILE];
    memset(buffer, 0xa5, sizeof buffer);
    madsjirn_written written = write_loop(buffer, sizeof buffer);
    printf("write: refusal %u, %u bytes\n", (unsigned)written.refusal, (unsigned)written.length);
    expect(written.refusal == MADSJIRN_ACCEPTED && written.length == file->length &&
               memcmp(buffer, file->bytes, file->length) == 0,
           "the loop's file, byte for byte");
    bool kept = true;
    for (size_t i = file->length; i < sizeof buffer; i++) {
        kept = kept && buffer[i] == 0xa5;
    }
    expect(kept, "all bytes past it are as they were");

    memset(buffer, 0xa5, sizeof buffer);
    written = write_loop(buffer, file->length - 1);
    printf("write with a byte too few: refused %u %u\n", (unsigned)written.refusal, (unsigned)written.place);
    expect(written.refusal == MADSJIRN_NO_SPACE && written.place == 0 && written.length == 0, "no space at 0");
    kept = true;
    for (size_t i = 0; i < sizeof buffer; i++) {
        kept = kept && buffer[i] == 0xa5;
    }
    expect(kept, "all bytes are as they were");
}

int main(void) {
    const file_builder file = loop_module(GUARD, BASE, (uint32_t)BASE + SIZE + 3); /* DB to DL + 4 */
    show_reading(&file);
    show_plate(&file);
    show_run(&file);
    show_step(&file);
    show_refused_file();
    show_refused_run(&file, MEMORY_LENGTH - SIZE + 1);
    show_refused_run(&file, SIZE_MAX);
    show_claims();
    show_writing(&file);
    puts(failed ? "something differs" : "all as the documents say");
    return failed ? 1 : 0;
}

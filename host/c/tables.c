/*
 * The members of the tables that madsjirn_write takes, and of its answer, are those that the header names. Writes
 * tables with different numbers in their members and looks at the file byte by byte, has them refused by each rule, and
 * looks at the buffer each time. Exits with 1 if anything is wrong.
 */
#include "madsjirn.h"

#include "expect.h"
#include "file_builder.h"

#include <string.h>

ASSERT_MEMBER(madsjirn_instruction, op, 0, 4);
ASSERT_MEMBER(madsjirn_instruction, a, 4, 4);
ASSERT_MEMBER(madsjirn_instruction, b, 8, 4);
ASSERT_MEMBER(madsjirn_instruction, w, 12, 4);
ASSERT_MEMBER(madsjirn_instruction, imm, 16, 4);
_Static_assert(sizeof(madsjirn_instruction) == 20, "size of madsjirn_instruction");

ASSERT_MEMBER(madsjirn_range, lowest, 0, 4);
ASSERT_MEMBER(madsjirn_range, highest, 4, 4);
_Static_assert(sizeof(madsjirn_range) == 8, "size of madsjirn_range");

ASSERT_MEMBER(madsjirn_target, index, 0, 4);
ASSERT_MEMBER(madsjirn_target, kind, 4, 4);
ASSERT_MEMBER(madsjirn_target, claim, 8, 64);
_Static_assert(sizeof(madsjirn_target) == 72, "size of madsjirn_target");

ASSERT_MEMBER(madsjirn_written, refusal, 0, 4);
ASSERT_MEMBER(madsjirn_written, place, 4, 4);
ASSERT_MEMBER(madsjirn_written, length, 8, 4);
_Static_assert(sizeof(madsjirn_written) == 12, "size of madsjirn_written");

enum {
    BASE = 0x20000000,
    SIZE = 4096,
    GUARD = 256,
    INSTRUCTIONS = 3,
    TARGETS = 2,
    THIRD = 18 + 8 * INSTRUCTIONS /* where the targets' field begins */
};

/* Tables, and the buffer that a file of them is written into. */
static struct {
    uint32_t base, size, guard;
    madsjirn_instruction instructions[INSTRUCTIONS];
    size_t instruction_count;
    madsjirn_target targets[TARGETS];
    size_t target_count;
    uint8_t buffer[FILE_LIMIT];
    size_t buffer_length;
} tables;

static uint8_t buffer_byte(size_t i) {
    return (uint8_t)(i * 5 + 77);
}

static uint32_t claimed_lowest(int r) {
    return 0x01010101u * (uint32_t)(r + 1);
}

static uint32_t claimed_highest(int r) {
    return 0x11121314u * (uint32_t)(r + 1);
}

/* A different number in every member that may have any. */
static void fill_tables(void) {
    static const madsjirn_instruction instructions[INSTRUCTIONS] = {
        {MADSJIRN_OP_LOAD, 5, 6, 2, 0x11223344},
        {MADSJIRN_OP_STORE, 1, 3, 4, 0x55667788},
        {MADSJIRN_OP_HALT, 0, 0, 0, 0},
    };
    tables.base = BASE;
    tables.size = SIZE;
    tables.guard = GUARD;
    memcpy(tables.instructions, instructions, sizeof instructions);
    tables.instruction_count = INSTRUCTIONS;
    tables.targets[0].index = 0;
    tables.targets[0].kind = MADSJIRN_INDIRECT;
    tables.targets[1].index = 2;
    tables.targets[1].kind = MADSJIRN_DIRECT;
    for (int r = 0; r < 8; r++) {
        tables.targets[0].claim[r] = (madsjirn_range){0, UINT32_MAX};
        tables.targets[1].claim[r] = (madsjirn_range){claimed_lowest(r), claimed_highest(r)};
    }
    tables.target_count = TARGETS;
    for (size_t i = 0; i < FILE_LIMIT; i++) {
        tables.buffer[i] = buffer_byte(i);
    }
    tables.buffer_length = FILE_LIMIT;
}

/* What a file of the tables has. */
static file_builder file_of_tables(void) {
    file_builder file = {{0}, 0};
    put_header(&file, 1, 12);
    put_u32(&file, BASE);
    put_u32(&file, SIZE);
    put_u32(&file, GUARD);
    put_header(&file, 2, INSTRUCTIONS * 8);
    put_instruction(&file, 10, 5, 6, 2, 0x11223344);
    put_instruction(&file, 11, 1, 3, 4, 0x55667788);
    put_instruction(&file, 0, 0, 0, 0, 0);
    put_header(&file, 3, TARGETS * 68);
    put_target(&file, 0, 1, 0, UINT32_MAX);
    put_u16(&file, 2);
    put_u8(&file, 0);
    put_u8(&file, 0);
    for (int r = 0; r < 8; r++) {
        put_u32(&file, claimed_lowest(r));
        put_u32(&file, claimed_highest(r));
    }
    return file;
}

static madsjirn_written write_tables(void) {
    return madsjirn_write(tables.base, tables.size, tables.guard, tables.instructions, tables.instruction_count,
                          tables.targets, tables.target_count, tables.buffer, tables.buffer_length);
}

/* The buffer has this file, and its other bytes are as they were. */
static void expect_buffer(const char *call, const file_builder *file) {
    for (size_t i = 0; i < FILE_LIMIT; i++) {
        uint8_t due = i < file->length ? file->bytes[i] : buffer_byte(i);
        if (tables.buffer[i] != due) {
            printf("  WRONG %s: byte %zu is %02x and not %02x hex\n", call, i, tables.buffer[i], due);
            wrong += 1;
        }
    }
}

static void expect_refused(const char *call, uint32_t refusal, uint32_t place) {
    static const file_builder nothing = {{0}, 0};
    madsjirn_written written = write_tables();
    EXPECT(call, written, refusal, refusal);
    EXPECT(call, written, place, place);
    EXPECT(call, written, length, 0);
    expect_buffer(call, &nothing);
    fill_tables();
}

static void look_at_write(void) {
    const char *call = "madsjirn_write, written";
    const file_builder due = file_of_tables();
    fill_tables();
    madsjirn_written written = write_tables();
    EXPECT(call, written, refusal, MADSJIRN_ACCEPTED);
    EXPECT(call, written, length, (uint32_t)due.length);
    expect_buffer(call, &due);
    fill_tables();

    /* From the last rule to the first: each fault is mended before the next. */
    tables.buffer_length = due.length - 1;
    expect_refused("madsjirn_write, buffer too short", MADSJIRN_NO_SPACE, 0);
    tables.targets[1].kind = 256 + MADSJIRN_DIRECT;
    expect_refused("madsjirn_write, bad target", MADSJIRN_BAD_TARGET, 1);
    tables.instructions[2].op = 256 + MADSJIRN_OP_HALT;
    expect_refused("madsjirn_write, bad instruction", MADSJIRN_BAD_INSTRUCTION, 2);
    tables.guard = SIZE + 1;
    expect_refused("madsjirn_write, bad layout", MADSJIRN_BAD_LAYOUT, 0);
    tables.target_count = 0;
    expect_refused("madsjirn_write, no targets", MADSJIRN_BAD_LENGTH, THIRD);
    tables.instruction_count = 0;
    expect_refused("madsjirn_write, no instructions", MADSJIRN_BAD_LENGTH, 15);

    /* All at once. */
    tables.buffer_length = 0;
    tables.targets[0].index = 65536;
    tables.instructions[0].a = 8;
    tables.base = 1;
    tables.target_count = 0;
    expect_refused("madsjirn_write, all wrong", MADSJIRN_BAD_LENGTH, THIRD);
}

/* Every opcode by its name, in the order of document 01's table. */
static void look_at_opcodes(void) {
    static const madsjirn_instruction instructions[16] = {
        {.op = MADSJIRN_OP_HALT},
        {.op = MADSJIRN_OP_SET},
        {.op = MADSJIRN_OP_COPY},
        {.op = MADSJIRN_OP_ADD},
        {.op = MADSJIRN_OP_ADDI},
        {.op = MADSJIRN_OP_SUB},
        {.op = MADSJIRN_OP_ANDI},
        {.op = MADSJIRN_OP_GUARD},
        {.op = MADSJIRN_OP_SHR},
        {.op = MADSJIRN_OP_SAR},
        {.op = MADSJIRN_OP_LOAD, .w = 4},
        {.op = MADSJIRN_OP_STORE, .w = 4},
        {.op = MADSJIRN_OP_JUMP},
        {.op = MADSJIRN_OP_BRANCH},
        {.op = MADSJIRN_OP_CHECK},
        {.op = MADSJIRN_OP_JUMPR},
    };
    const char *call = "madsjirn_write, every opcode";
    fill_tables();
    madsjirn_written written = madsjirn_write(BASE, SIZE, GUARD, instructions, 16, tables.targets, 1, tables.buffer,
                                              tables.buffer_length);
    EXPECT(call, written, refusal, MADSJIRN_ACCEPTED);
    EXPECT(call, written, length, 21 + 16 * 8 + 68);
    for (uint32_t i = 0; i < 16; i++) {
        expect(call, "op", tables.buffer[18 + 8 * i], i);
    }
}

int main(void) {
    look_at_write();
    look_at_opcodes();
    return looked_at_all();
}

/*
 * madsjirn: judges, runs and writes modules, and works out their claims. The interface of the proved library
 * libmadsjirn.a.
 *
 * Every function takes anything: any bytes as a file, any limits, machine, memory, offset and budget, any numbers in
 * tables. There is nothing to test beforehand. The only demands are those of C on pointers:
 *
 *   - a pointer is not NULL and is valid for its length, even where the length is 0: file, memory and buffer for
 *     file_length, memory_length and buffer_length bytes, machine for one madsjirn_machine, instructions and targets
 *     for instruction_count times madsjirn_instruction and target_count times madsjirn_target;
 *   - what one call is given does not overlap: file, machine and memory, or instructions, targets and buffer;
 *   - nobody else writes to them during the call.
 *
 * Nothing is kept between calls: no pointer, no state, no heap. Calls on different machines, memories and buffers may
 * be made at the same time. Each call gets the module's bytes, or its tables, and judges them.
 *
 * The library is built for x86-64 Linux, on a processor with popcnt (x86-64-v2), by `rt lib` in crates/madsjirn, which
 * writes out/libmadsjirn.a there: compile with -I include and link that file. A call of madsjirn_work_out writes less
 * than 24,000 bytes below its caller's stack pointer, one of any other function less than 1,700 (measured, not proved:
 * docs/PERFORMANCE.md). No call recurses or makes a system call.
 *
 * What judges a module for a device, or runs it there, is told the device's limits first: those of madsjirn_box or of
 * madsjirn_plate. madsjirn_read and madsjirn_write know no device. Before document 02's ticket 8 there were no limits:
 * code that was compiled with a header of that time still links, but hands its arguments over otherwise, so compile all
 * of it anew.
 *
 * Answers are numbers: member refusal is 0, or the number of the first rule broken, in the documents' order, and
 * place says where: an offset into the file, or an index, as listed below. Where refusal is 0, place means
 * nothing. No other numbers than those named below occur.
 *
 * "Document 01" is the scope document, "document 02" the change requests. Where their word differs from the name here
 * it stands in quotes.
 */
#ifndef MADSJIRN_H
#define MADSJIRN_H

#include <stddef.h>
#include <stdint.h>

#ifdef __cplusplus
extern "C" {
#endif

/* Refusals, by the numbers of document 01's table and, from 16 on, of document 02, each with what its place is. */
enum {
    MADSJIRN_ACCEPTED = 0,         /* no refusal */

    /*
     * The file; judged by every function that gets one, by madsjirn_work_out without the claims of direct targets.
     * Of tables madsjirn_write judges 3, 5, 6 and 7; the offset of 3 is the one that the field would have.
     */
    MADSJIRN_TRUNCATED = 1,        /* "short": the bytes end inside a field; the field's offset */
    MADSJIRN_WRONG_TAG = 2,        /* not the tag that is due; the field's offset */
    MADSJIRN_BAD_LENGTH = 3,       /* a length that is not listed; the field's offset */
    MADSJIRN_TRAILING_BYTES = 4,   /* "tail": bytes after the third field; the offset of the first */
    MADSJIRN_BAD_LAYOUT = 5,       /* base, size and guard do not fit together; 0 */
    MADSJIRN_BAD_INSTRUCTION = 6,  /* opcode, operand or unused byte; the lowest index */
    MADSJIRN_BAD_TARGET = 7,       /* "bad door"; the lowest target's number, counted from 0 */

    /* The code; judged by madsjirn_verify and madsjirn_work_out, after 17. The place is the instruction's index. */
    MADSJIRN_NO_TARGET = 8,        /* "no door": a jump or branch to what is no target */
    MADSJIRN_UNCHECKED_JUMP = 9,   /* jumpr without check of its register just before it, or itself a target */
    MADSJIRN_WILD_ACCESS = 10,     /* an access may reach outside the region and its guard zones */
    MADSJIRN_BROKEN_CLAIM = 11,    /* the ranges on an edge to a target are not within its claim; by verify alone */
    MADSJIRN_UNREACHABLE = 12,     /* "no way in": after halt, jump or jumpr, and no target */
    MADSJIRN_FALLS_OFF = 13,       /* "runs off": the last instruction is no halt, jump or jumpr */

    /* The call; judged by madsjirn_run and madsjirn_step, after 17. The place is 0. */
    MADSJIRN_BAD_PC = 14,          /* "bad place": the machine's pc is no instruction's index */
    MADSJIRN_NO_ROOM = 15,         /* "no ground": offset + size exceeds memory_length */

    /* The buffer; judged by madsjirn_write. The place is 0. */
    MADSJIRN_NO_SPACE = 16,        /* the file is longer than buffer_length */

    /*
     * The device; judged by madsjirn_verify, madsjirn_work_out, madsjirn_run and madsjirn_step, after 1 to 7 and before
     * all others; nothing is worked out before it. The place is 0.
     */
    MADSJIRN_OVER_PLATE = 17       /* more instructions or more targets than the device's limits */
};

/*
 * What a device holds, the first argument of the functions that ask for it: a module with more instructions or with
 * more targets is refused by 17. Any numbers may stand here. 0 refuses every readable module, and no module has more
 * than the box's.
 *
 * A module within the limits of two devices gets the same verdict, the same claims and the same run on both.
 */
typedef struct {
    uint32_t instructions;
    uint32_t targets; /* "doors" */
} madsjirn_limits;

/* Where this header alone is compiled, nobody calls the two functions: no warning of that. */
#ifdef __GNUC__
#define MADSJIRN_MAYBE_UNUSED __attribute__((unused))
#else
#define MADSJIRN_MAYBE_UNUSED
#endif

/* The box: as many as a file can have, so that it never refuses by 17. */
MADSJIRN_MAYBE_UNUSED static inline madsjirn_limits madsjirn_box(void) {
    const madsjirn_limits limits = {4096, 256};
    return limits;
}

/* The scale plate: the longest module that it takes has 6,293 bytes. */
MADSJIRN_MAYBE_UNUSED static inline madsjirn_limits madsjirn_plate(void) {
    const madsjirn_limits limits = {512, 32};
    return limits;
}
#undef MADSJIRN_MAYBE_UNUSED

/* Endings of a run. */
enum {
    MADSJIRN_HALTED = 0,           /* a halt was reached */
    MADSJIRN_TRAPPED = 1,          /* an access reached into a guard zone */
    MADSJIRN_DENIED = 2,           /* "turned away": a check found no indirect target's index */
    MADSJIRN_VIOLATED = 3,         /* "strayed": never by an accepted module begun at an indirect target */
    MADSJIRN_OUT_OF_BUDGET = 4,    /* "spent": the budget is used and the run could go on */
    MADSJIRN_REFUSED = 5           /* no step was made: member refusal says why */
};

/* The machine record that the host lends to a run: r0 to r7, and the index of the next instruction ("place"). */
typedef struct {
    uint32_t registers[8];
    uint16_t pc;
} madsjirn_machine;

/* The opcodes, for member op of an instruction. docs/MODULES.md has what each does and which members it uses. */
enum {
    MADSJIRN_OP_HALT = 0,
    MADSJIRN_OP_SET = 1,
    MADSJIRN_OP_COPY = 2,
    MADSJIRN_OP_ADD = 3,
    MADSJIRN_OP_ADDI = 4,
    MADSJIRN_OP_SUB = 5,
    MADSJIRN_OP_ANDI = 6,
    MADSJIRN_OP_GUARD = 7,
    MADSJIRN_OP_SHR = 8,
    MADSJIRN_OP_SAR = 9,
    MADSJIRN_OP_LOAD = 10,
    MADSJIRN_OP_STORE = 11,
    MADSJIRN_OP_JUMP = 12,
    MADSJIRN_OP_BRANCH = 13,
    MADSJIRN_OP_CHECK = 14,
    MADSJIRN_OP_JUMPR = 15
};

/* The kinds of a target. */
enum {
    MADSJIRN_DIRECT = 0,           /* "inner" */
    MADSJIRN_INDIRECT = 1          /* "open" */
};

/* The bytes of the longest file: a buffer of so many has space for every module. */
enum { MADSJIRN_LONGEST_FILE = 50197 };

/* An instruction, as madsjirn_write takes it. Members that the opcode does not use are 0. */
typedef struct {
    uint32_t op;
    uint32_t a;
    uint32_t b;
    uint32_t w;
    uint32_t imm; /* a signed one in two's complement */
} madsjirn_instruction;

/* A lowest and a highest value of a register; 0 and UINT32_MAX are anything. */
typedef struct {
    uint32_t lowest;
    uint32_t highest;
} madsjirn_range;

/* A target ("door"), as madsjirn_write takes it. */
typedef struct {
    uint32_t index;          /* of an instruction */
    uint32_t kind;           /* MADSJIRN_DIRECT or MADSJIRN_INDIRECT */
    madsjirn_range claim[8]; /* for r0 to r7 */
} madsjirn_target;

/* What madsjirn_read answers. Where refusal is not 0, all members after place are 0. */
typedef struct {
    uint32_t refusal;      /* 0, or 1 to 7 */
    uint32_t place;
    uint32_t base;         /* the address of the region's first byte */
    uint32_t size;         /* the region's bytes: a power of two, 256 to 65,536 */
    uint32_t guard;        /* the bytes of each guard zone, 0 to 4,096 */
    uint32_t instructions; /* 1 to 4,096 */
    uint32_t targets;      /* "doors", 1 to 256 */
} madsjirn_module;

/* What madsjirn_verify and madsjirn_work_out answer. Where refusal is not 0, all members after place are 0. */
typedef struct {
    uint32_t refusal;      /* 0: accepted; or 1 to 13, by madsjirn_work_out never 11; or 17 */
    uint32_t place;
    uint32_t instructions; /* 1 to 4,096, and at most limits.instructions */
    uint32_t targets;      /* "doors", 1 to 256, and at most limits.targets */
} madsjirn_verdict;

/*
 * What madsjirn_run and madsjirn_step answer.
 *
 * Member steps and the budget had 32 bits before document 02's ticket 6, and this struct 16 bytes. It has 24 now: four
 * that mean nothing stand between ending and steps. Code that was compiled with the earlier header still links, but
 * passes and takes answers otherwise: compile all of it anew.
 */
typedef struct {
    uint32_t refusal; /* 0: the run was made; or 1 to 7, 14, 15, 17 */
    uint32_t place;
    uint32_t ending;  /* MADSJIRN_HALTED to MADSJIRN_OUT_OF_BUDGET; MADSJIRN_REFUSED where refusal is not 0 */
    uint64_t steps;   /* the steps made, the ending one included; 0 where refusal is not 0 */
} madsjirn_answer;

/* What madsjirn_write answers. */
typedef struct {
    uint32_t refusal; /* 0: the file is written; or 3, 5, 6, 7, 16 */
    uint32_t place;
    uint32_t length;  /* the file's bytes, 97 to MADSJIRN_LONGEST_FILE; 0 where refusal is not 0 */
} madsjirn_written;

/*
 * Reads a module file: rules 1 to 7.
 *
 * Yields refusal 0 with layout and counts if the file is readable, that is, if a run of it can be made on a device that
 * holds so much; else the first rule broken, and the rest 0. Changes nothing. The counts say which devices do.
 */
madsjirn_module madsjirn_read(const uint8_t *file, size_t file_length);

/*
 * Judges a module file for a device: rules 1 to 7, then 17, then 8 to 13.
 *
 * Yields refusal 0 with the counts exactly if the module keeps every rule; else the first rule broken, and the
 * rest 0. Changes nothing.
 *
 * Neither a run of an accepted module that begins at an indirect target with any registers, nor any later run of
 * it on the machine that this one left, ends as MADSJIRN_VIOLATED, whatever the host writes into the region before
 * and between them. Index 0 is an indirect target of every module.
 */
madsjirn_verdict madsjirn_verify(madsjirn_limits limits, const uint8_t *file, size_t file_length);

/*
 * Works out the claims of a module's direct targets ("inner doors"), for builders that have no tool for it, and judges
 * the module with them for a device: document 02's ticket 3.
 *
 * The claims of direct targets in file are ignored, whatever they are, also those whose lowest value exceeds the
 * highest. They count for nothing in rule 7; all else of it does: indexes, kinds, the zero byte and the claims of
 * indirect targets.
 *
 * Yields refusal 0 with the counts if the module keeps every rule with the claims worked out. These are then written
 * over those of the direct targets in file, and no other byte changes. madsjirn_verify accepts what is in file then, by
 * the same limits and with the same counts, and what is said there of runs holds; worked out again it stays as it is.
 *
 * Else yields the first rule broken, and the rest 0: 1 to 7 as said, then 17, before anything is worked out, or what
 * madsjirn_verify answers of the module with the claims worked out. A refused call leaves every byte of file as it was.
 * It does not mean that there are no claims with which the module is accepted: narrower ones may exist.
 *
 * A module can be made so that a call takes seconds (measured: docs/PERFORMANCE.md).
 */
madsjirn_verdict madsjirn_work_out(madsjirn_limits limits, uint8_t *file, size_t file_length);

/*
 * Runs a module on machine, from machine->pc on, for at most budget steps. The region is the module's size
 * bytes of memory from offset on: memory[offset] has the address base.
 *
 * The module need only be readable and within the limits. Refusals: 1 to 7 for the file, then 17, then 14, then 15,
 * whatever the budget. A refused call leaves machine and every byte of memory as they were: ending is
 * MADSJIRN_REFUSED, steps is 0.
 *
 * Else refusal is 0, and ending and steps say how the run ended and how many steps it made. It changes nothing
 * but the registers and pc of machine, and size bytes of memory at offset. A step that ends the run (halted,
 * trapped, denied, violated) is counted and changes nothing; machine->pc stays at that instruction. After
 * MADSJIRN_OUT_OF_BUDGET a further call goes on where this one stopped.
 */
madsjirn_answer madsjirn_run(madsjirn_limits limits, const uint8_t *file, size_t file_length,
                             madsjirn_machine *machine, uint8_t *memory, size_t memory_length, size_t offset,
                             uint64_t budget);

/*
 * Makes one step: madsjirn_run with budget 1. A step after which the run could go on ends as
 * MADSJIRN_OUT_OF_BUDGET.
 */
madsjirn_answer madsjirn_step(madsjirn_limits limits, const uint8_t *file, size_t file_length,
                              madsjirn_machine *machine, uint8_t *memory, size_t memory_length, size_t offset);

/*
 * Writes a module file from its tables, for builders: document 02's ticket 5. The tables are the layout, which is base,
 * size and guard, instruction_count instructions and target_count targets.
 *
 * Yields refusal 0 and the file's length, 21 + 8 * instruction_count + 68 * target_count, if the tables keep the rules
 * of a readable file and buffer has space for it. The file is then in the first length bytes of buffer, and every byte
 * past it is as it was. It is the only file that has these tables: madsjirn_read accepts it, with this layout and these
 * counts, and the tables of a file that madsjirn_read accepts are written as that very file.
 *
 * Else yields the first rule broken, in this order, and length 0:
 *
 *    3  instruction_count is not 1 to 4,096, place 15; then target_count is not 1 to 256, place
 *       18 + 8 * instruction_count: the offsets that their fields would have;
 *    5  base, size and guard do not fit together, place 0;
 *    6  an instruction is bad, place the lowest index of one;
 *    7  a target is bad, place the lowest number of one, counted from 0;
 *   16  buffer_length is less than the file's length, place 0.
 *
 * An op, a, b, w, index or kind that is too large for its field in the file is out of range, and so 6 or 7; no number
 * is cut. A refused call leaves every byte of buffer as it was.
 *
 * The code and its claims are not judged, and no device is asked for: what was written has still to be accepted by
 * madsjirn_verify, or by madsjirn_work_out, for which a direct target may claim anything.
 */
madsjirn_written madsjirn_write(uint32_t base, uint32_t size, uint32_t guard,
                                const madsjirn_instruction *instructions, size_t instruction_count,
                                const madsjirn_target *targets, size_t target_count, uint8_t *buffer,
                                size_t buffer_length);

/* The library was compiled for these sizes. C99 has no assertion for it. */
#if defined(__cplusplus) && __cplusplus >= 201103L
#define MADSJIRN_ASSERT_SIZE(type, size) static_assert(sizeof(type) == (size), "size of " #type)
#elif defined(__STDC_VERSION__) && __STDC_VERSION__ >= 201112L
#define MADSJIRN_ASSERT_SIZE(type, size) _Static_assert(sizeof(type) == (size), "size of " #type)
#else
#define MADSJIRN_ASSERT_SIZE(type, size) typedef char type##_has_its_size[sizeof(type) == (size) ? 1 : -1]
#endif
MADSJIRN_ASSERT_SIZE(madsjirn_limits, 8);
MADSJIRN_ASSERT_SIZE(madsjirn_machine, 36);
MADSJIRN_ASSERT_SIZE(madsjirn_module, 28);
MADSJIRN_ASSERT_SIZE(madsjirn_verdict, 16);
MADSJIRN_ASSERT_SIZE(madsjirn_answer, 24);
MADSJIRN_ASSERT_SIZE(madsjirn_instruction, 20);
MADSJIRN_ASSERT_SIZE(madsjirn_range, 8);
MADSJIRN_ASSERT_SIZE(madsjirn_target, 72);
MADSJIRN_ASSERT_SIZE(madsjirn_written, 12);
#undef MADSJIRN_ASSERT_SIZE

#ifdef __cplusplus
}
#endif

#endif

/*
 * The stack that a call needs. Makes each call on a stack of its own that was filled with one byte, and looks how
 * far down it was written to. Takes module files as arguments and prints, for each function, the most bytes that
 * any call needed: arguments on the stack, return address and all that is called inside.
 *
 * Bytes that a call reserves but never writes cannot be seen. x86-64.
 */
#define _XOPEN_SOURCE 700

#include "madsjirn.h"

#include <stdio.h>
#include <stdlib.h>
#include <string.h>
#include <ucontext.h>

enum {
    STACK_LENGTH = 1 << 18,
    FILE_LIMIT = 1 << 18,
    REGION_LIMIT = 1 << 16,
    OFFSET = 64,
    BUDGET = 10000,
    INSTRUCTION_LIMIT = 4096,
    TARGET_LIMIT = 256
};

/* The last may change the file. */
typedef enum { EMPTY, READ, VERIFY, RUN, STEP, WRITE, WORK_OUT, FUNCTIONS } function;

static const char *const names[FUNCTIONS] = {"an empty function", "madsjirn_read",  "madsjirn_verify",  "madsjirn_run",
                                             "madsjirn_step",     "madsjirn_write", "madsjirn_work_out"};

/* The call to make; contexts take no pointers as arguments. */
static struct {
    function function;
    uint8_t *file;
    size_t length;
    madsjirn_machine machine;
    uint8_t *stack_pointer; /* just before the call */
} job;

static uint8_t stack[STACK_LENGTH] __attribute__((aligned(64)));
static uint8_t memory[OFFSET + REGION_LIMIT];

/* The file's tables, and where they are written. */
static struct {
    uint32_t base, size, guard;
    madsjirn_instruction instructions[INSTRUCTION_LIMIT];
    size_t instruction_count;
    madsjirn_target targets[TARGET_LIMIT];
    size_t target_count;
    uint8_t buffer[MADSJIRN_LONGEST_FILE];
} tables;

static ucontext_t caller;
static ucontext_t callee;
static volatile uint32_t sink;

static __attribute__((noinline)) uint32_t empty(void) {
    __asm__ volatile("");
    return 0;
}

#define MARK() __asm__ volatile("mov %%rsp, %0" : "=m"(job.stack_pointer) : : "memory")

static void make_call(void) {
    MARK();
    switch (job.function) {
    case EMPTY:
        sink = empty();
        break;
    case READ:
        sink = madsjirn_read(job.file, job.length).refusal;
        break;
    case VERIFY:
        sink = madsjirn_verify(madsjirn_box(), job.file, job.length).refusal;
        break;
    case RUN:
        sink = madsjirn_run(madsjirn_box(), job.file, job.length, &job.machine, memory, sizeof memory, OFFSET, BUDGET)
                   .refusal;
        break;
    case STEP:
        sink =
            madsjirn_step(madsjirn_box(), job.file, job.length, &job.machine, memory, sizeof memory, OFFSET).refusal;
        break;
    case WRITE:
        sink = madsjirn_write(tables.base, tables.size, tables.guard, tables.instructions, tables.instruction_count,
                              tables.targets, tables.target_count, tables.buffer, sizeof tables.buffer)
                   .refusal;
        break;
    default:
        sink = madsjirn_work_out(madsjirn_box(), job.file, job.length).refusal;
        break;
    }
}

/* The bytes below the stack pointer that were written over, when the stack was filled with this byte. */
static size_t used_over(uint8_t fill) {
    memset(stack, fill, sizeof stack);
    memset(memory, 0, sizeof memory);
    memset(&job.machine, 0, sizeof job.machine);
    if (getcontext(&callee) != 0) {
        perror("getcontext");
        exit(1);
    }
    callee.uc_stack.ss_sp = stack;
    callee.uc_stack.ss_size = sizeof stack;
    callee.uc_link = &caller;
    makecontext(&callee, make_call, 0);
    if (swapcontext(&caller, &callee) != 0) {
        perror("swapcontext");
        exit(1);
    }
    const uint8_t *lowest = stack;
    while (lowest < job.stack_pointer && *lowest == fill) {
        lowest++;
    }
    if (lowest == stack) {
        fputs("the stack was too small\n", stderr);
        exit(1);
    }
    return (size_t)(job.stack_pointer - lowest);
}

/* A written byte may happen to be the fill; so two fills. */
static size_t used(function function, uint8_t *file, size_t length) {
    job.function = function;
    job.file = file;
    job.length = length;
    size_t one = used_over(0x5a);
    size_t other = used_over(0xc3);
    return one > other ? one : other;
}

static uint32_t u32_at(const uint8_t *bytes) {
    return bytes[0] | (uint32_t)bytes[1] << 8 | (uint32_t)bytes[2] << 16 | (uint32_t)bytes[3] << 24;
}

static size_t u16_at(const uint8_t *bytes) {
    return bytes[0] | (size_t)bytes[1] << 8;
}

/* The tables of a file whose fields are whole; of another they stay those of the file before. */
static void decode(const uint8_t *file, size_t length) {
    const uint32_t refusal = madsjirn_read(file, length).refusal;
    if (refusal != MADSJIRN_ACCEPTED && refusal < MADSJIRN_BAD_LAYOUT) {
        return;
    }
    tables.base = u32_at(file + 3);
    tables.size = u32_at(file + 7);
    tables.guard = u32_at(file + 11);
    tables.instruction_count = u16_at(file + 16) / 8;
    for (size_t i = 0; i < tables.instruction_count; i++) {
        const uint8_t *bytes = file + 18 + 8 * i;
        tables.instructions[i] = (madsjirn_instruction){bytes[0], bytes[1], bytes[2], bytes[3], u32_at(bytes + 4)};
    }
    const uint8_t *third = file + 18 + 8 * tables.instruction_count;
    tables.target_count = u16_at(third + 1) / 68;
    for (size_t j = 0; j < tables.target_count; j++) {
        const uint8_t *bytes = third + 3 + 68 * j;
        tables.targets[j].index = (uint32_t)u16_at(bytes);
        tables.targets[j].kind = bytes[2];
        for (int r = 0; r < 8; r++) {
            tables.targets[j].claim[r] = (madsjirn_range){u32_at(bytes + 4 + 8 * r), u32_at(bytes + 8 + 8 * r)};
        }
    }
}

static size_t read_file(const char *path, uint8_t *bytes) {
    FILE *in = fopen(path, "rb");
    if (in == NULL) {
        perror(path);
        exit(1);
    }
    size_t length = fread(bytes, 1, FILE_LIMIT, in);
    if (ferror(in) != 0) {
        perror(path);
        exit(1);
    }
    fclose(in);
    return length;
}

int main(int count, char **paths) {
    static uint8_t file[FILE_LIMIT];
    size_t most[FUNCTIONS] = {0};
    for (int i = 1; i < count; i++) {
        size_t length = read_file(paths[i], file);
        decode(file, length);
        for (int f = 0; f < FUNCTIONS; f++) {
            size_t bytes = used((function)f, file, length);
            most[f] = bytes > most[f] ? bytes : most[f];
        }
    }
    printf("Most bytes of stack that a call wrote to, over %d files:\n\n", count - 1);
    for (int f = 0; f < FUNCTIONS; f++) {
        printf("%-20s %6zu\n", names[f], most[f]);
    }
    return 0;
}

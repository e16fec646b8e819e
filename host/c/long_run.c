/*
 * A run of more steps than 32 bits count, as of a module left on for a week: document 02's ticket 6. A loop of two
 * instructions counts its rounds in r0. Takes some twenty seconds. Exits with 1 if anything differs from what is due.
 */
#include "madsjirn.h"

#include "expect.h"
#include "file_builder.h"

#include <time.h>

enum { BASE = 0x20000000, SIZE = 256 };

/* Just more than 32 bits hold, and whole rounds. */
static const uint64_t BUDGET = (UINT64_C(1) << 32) + 2;

static uint8_t region[SIZE];

static file_builder counting_module(void) {
    file_builder file = {{0}, 0};
    put_header(&file, 1, 12);
    put_u32(&file, BASE);
    put_u32(&file, SIZE);
    put_u32(&file, 0);
    put_header(&file, 2, 2 * 8);
    put_instruction(&file, 4, 0, 0, 0, 1);  /* 0 addi r0, 1 */
    put_instruction(&file, 12, 0, 0, 0, 0); /* 1 jump 0 */
    put_header(&file, 3, 68);
    put_target(&file, 0, 1, 0, UINT32_MAX); /* indirect */
    return file;
}

int main(void) {
    const file_builder file = counting_module();
    madsjirn_verdict verdict = madsjirn_verify(madsjirn_box(), file.bytes, file.length);
    EXPECT("madsjirn_verify", verdict, refusal, MADSJIRN_ACCEPTED);

    madsjirn_machine machine = {{0}, 0};
    const clock_t begin = clock();
    madsjirn_answer answer =
        madsjirn_run(madsjirn_box(), file.bytes, file.length, &machine, region, SIZE, 0, BUDGET);
    const double seconds = (double)(clock() - begin) / CLOCKS_PER_SEC;
    printf("%" PRIu64 " steps of %" PRIu64 " in %.1f s, %.2f ns each; r0 %08" PRIx32 ", pc %u\n", answer.steps, BUDGET,
           seconds, seconds * 1e9 / (double)BUDGET, machine.registers[0], (unsigned)machine.pc);
    EXPECT("madsjirn_run", answer, refusal, MADSJIRN_ACCEPTED);
    EXPECT("madsjirn_run", answer, ending, MADSJIRN_OUT_OF_BUDGET);
    EXPECT("madsjirn_run", answer, steps, BUDGET);
    EXPECT("madsjirn_run", machine, registers[0], BUDGET / 2);
    EXPECT("madsjirn_run", machine, pc, 0);
    return looked_at_all();
}

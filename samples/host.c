/* A host in C: a body is marked, what each level keeps is printed, and a call puts it aside and gets it back; then a bad one is refused.
 *
 *     gcc -std=c11 -I include samples/host.c target/staticlib/libturniploom.a -o host && ./host */
#include "turniploom.h"
#include <stdio.h>

enum { N = 5, REGS = 10 };

/* A call of five arguments, two of them in the ArgsR after it. Six words an instruction: opcode, marks, a, b, c, x. */
static uint16_t code[N * TURNIPLOOM_CODE_WORDS] = {
    TURNIPLOOM_CallR, 0, 5, 0, 1, 5,
    TURNIPLOOM_ArgsR, 0, 9, 4, 5, 0,
    TURNIPLOOM_StoreTopR, 0, 6, 0, 0, 0,
    TURNIPLOOM_AddR, 0, 7, 6, 9, 0,
    TURNIPLOOM_ReturnR, 0, 0, 7, 0, 0,
};

/* The host's own test: here, an addition may run a dunder. */
static bool dunder_op(uint16_t op) { return op == TURNIPLOOM_AddR; }

static uint64_t rows[TURNIPLOOM_ROWS_LEN(N, REGS)];
static uint32_t offsets[TURNIPLOOM_ENDS_LEN(N)];
static uint16_t list[TURNIPLOOM_LIST_LEN(N, REGS)];

static turniploom_answer kept(size_t regs) {
    static const uint32_t tries[] = {0, 4};
    return turniploom_kept(code, sizeof code / sizeof code[0], regs, tries, 2, false, rows, sizeof rows / sizeof rows[0], offsets,
                           sizeof offsets / sizeof offsets[0], list, sizeof list / sizeof list[0]);
}

/* The body's registers and the saver's own words. */
static uint64_t head[TURNIPLOOM_SAVER_HEAD], area[TURNIPLOOM_SAVER_AREA], file[TURNIPLOOM_SAVER_FILE];

/* The call at k: what its level keeps is put aside, every register is overwritten, and the call returns a value. */
static turniploom_answer called(size_t k, uint64_t value) {
    turniploom_answer level = turniploom_level(code, sizeof code / sizeof code[0], k), answer;
    size_t r;
    answer = turniploom_saver_enter(head, area, file, list + offsets[k], offsets[k + 1] - offsets[k], level.third);
    if (answer.refusal != 0) return answer;
    for (r = 0; r < REGS; r++) file[r] = 0;
    answer = turniploom_saver_return(head, area, file, value);
    if (answer.refusal == 0) printf("%d goes on at %d with r%d %d\n", (int)k, (int)level.second, (int)level.third, (int)file[level.third]);
    return answer;
}

int main(void) {
    size_t k, r;
    turniploom_answer answer;
    turniploom_set_marks(code, sizeof code / sizeof code[0], dunder_op);
    answer = kept(REGS);
    if (answer.refusal != 0) return 1;
    printf("turniploom %s: %d kept, in %d full sweeps\n", TURNIPLOOM_VERSION, (int)answer.first, (int)answer.second);
    for (k = 0; k < N; k++) {
        if (offsets[k] == offsets[k + 1]) continue;
        printf("%d keeps", (int)k);
        for (r = offsets[k]; r < offsets[k + 1]; r++) printf(" r%d", list[r]);
        printf("\n");
    }
    if (turniploom_saver_make(head, REGS).refusal != 0) return 1;
    for (r = 0; r < REGS; r++) file[r] = 100 + r;
    if (called(0, 7).refusal != 0) return 1;
    printf("r9 is %d again\n", (int)file[9]);
    answer = kept(2000);
    printf("refused (%d): %s, %d of them\n", answer.refusal, turniploom_refusal_text(answer.refusal), (int)answer.first);
    return 0;
}

/* A host in C: document 01's P1 and P13 through the header. */
#include "turniploom.h"
#include <stdio.h>
#include <string.h>

static int failed;
#define SHOW(holds) do { if (!(holds)) { printf("line %d: not so: %s\n", __LINE__, #holds); failed = 1; } } while (0)

/* Code K, six words an instruction: opcode, marks, a, b, c, x. */
static const uint16_t K[] = {
    TURNIPLOOM_LoadGlobalR, 0, 0, 7, 0, 0, TURNIPLOOM_LoadGlobalR, 0, 1, 9, 0, 0, TURNIPLOOM_CallR, 0, 1, 0, 0, 0,
    TURNIPLOOM_StoreTopR, 0, 2, 0, 0, 0,   TURNIPLOOM_AddR, 0, 3, 0, 2, 0,        TURNIPLOOM_ReturnR, 0, 0, 3, 0, 0,
};
enum { WORDS = sizeof K / sizeof K[0] };

static bool no_dunder(uint16_t op) { (void)op; return false; }
static bool get_item(uint16_t op) { return op == TURNIPLOOM_GetItemR; }

/* A wide call, whose mark decides what is kept, and the marks of every opcode. */
static void marks(void) {
    uint16_t code[] = {TURNIPLOOM_CallR, 0, 5, 0, 1, 5, TURNIPLOOM_ArgsR, 0, 9, 4, 5, 0, TURNIPLOOM_StoreTopR, 0, 6, 0, 0, 0,
                       TURNIPLOOM_AddR, 0, 7, 6, 9, 0,  TURNIPLOOM_ReturnR, 0, 0, 7, 0, 0};
    static const uint32_t no_tries[1] = {0};
    uint64_t rows[6];
    uint32_t offsets[6];
    uint16_t list[4], op, one[6] = {0}, chunk[TURNIPLOOM_CHUNK_WORDS] = {0};
    turniploom_answer kept = turniploom_kept(code, 30, 10, no_tries, 0, false, rows, 6, offsets, 6, list, 4);
    SHOW(kept.first == 2 && list[0] == 4 && list[1] == 5);
    turniploom_set_marks(code, 30, no_dunder);
    SHOW(code[1] == (TURNIPLOOM_WIDE | TURNIPLOOM_IS_REGISTER));
    kept = turniploom_kept(code, 30, 10, no_tries, 0, false, rows, 6, offsets, 6, list, 4);
    SHOW(kept.first == 1 && list[0] == 9);
    for (op = 0; op <= 191; op++) {
        one[0] = chunk[0] = op;
        turniploom_set_marks(one, 6, get_item);
        turniploom_set_chunk_marks(chunk, TURNIPLOOM_CHUNK_WORDS);
        printf("%d %d %d\n", op, one[1], chunk[1]);
    }
}

/* The lengths that the macros give are enough, and one less is refused where nothing shorter would do. */
static void lengths(void) {
    uint64_t rows[TURNIPLOOM_ROWS_LEN(6, 65)];
    uint32_t offsets[TURNIPLOOM_ENDS_LEN(6)], out[TURNIPLOOM_ENDS_LEN(6)];
    uint16_t list[TURNIPLOOM_LIST_LEN(6, 65)];
    static const uint32_t no_tries[1] = {0};
    turniploom_answer a = turniploom_kept(K, WORDS, 65, no_tries, 0, false, rows, TURNIPLOOM_ROWS_LEN(6, 65) - 1, offsets, 7, list, 390);
    SHOW(a.refusal == TURNIPLOOM_BUFFER && a.first == 1 && a.second == TURNIPLOOM_ROWS_LEN(6, 65));
    a = turniploom_kept(K, WORDS, 65, no_tries, 0, false, rows, TURNIPLOOM_ROWS_LEN(6, 65), offsets, TURNIPLOOM_ENDS_LEN(6) - 1, list, 390);
    SHOW(a.refusal == TURNIPLOOM_BUFFER && a.first == 2 && a.second == TURNIPLOOM_ENDS_LEN(6));
    SHOW(turniploom_kept(K, WORDS, 65, no_tries, 0, false, rows, 14, offsets, 7, list, TURNIPLOOM_LIST_LEN(6, 65)).refusal == 0);
    a = turniploom_loops_around(K, WORDS, out, TURNIPLOOM_ENDS_LEN(6) - 1);
    SHOW(a.refusal == TURNIPLOOM_BUFFER && a.second == TURNIPLOOM_ENDS_LEN(6));
    uint32_t rows32[TURNIPLOOM_ROWS32_LEN(6, 65)];
    a = turniploom_kept32(K, WORDS, 65, no_tries, 0, false, rows32, TURNIPLOOM_ROWS32_LEN(6, 65) - 1, offsets, 7, list, 390);
    SHOW(a.refusal == TURNIPLOOM_BUFFER && a.first == 1 && a.second == TURNIPLOOM_ROWS32_LEN(6, 65));
    SHOW(turniploom_kept32(K, WORDS, 65, no_tries, 0, false, rows32, 21, offsets, 7, list, TURNIPLOOM_LIST_LEN(6, 65)).refusal == 0);
    SHOW(offsets[6] == 1 && list[0] == 0 && rows32[2 * 3] == 3 && rows32[2 * 3 + 1] == 0);
    static const uint32_t tries[2] = {1, 5};
    a = turniploom_kept_raising(K, WORDS, 65, tries, 2, true, rows, TURNIPLOOM_ROWS_LEN(6, 65), offsets, 7, list, TURNIPLOOM_LIST_LEN(6, 65));
    SHOW(a.refusal == 0 && a.first == 2 && a.third == 0 && list[0] == 0 && list[1] == 3 && rows[2 * 2] == 11);
    uint16_t plain[1] = {0}, more[2] = {9, 9};
    SHOW(turniploom_exposed(plain, 1, list, 2, more, 1).refusal == TURNIPLOOM_BUFFER && more[0] == 9);
    SHOW(turniploom_exposed(plain, 1, list, 2, more, 2).first == 1 && more[0] == 3 && more[1] == 9);
    SHOW(TURNIPLOOM_ROW32_WORDS(0) == 1 && TURNIPLOOM_ROW32_WORDS(32) == 1 && TURNIPLOOM_ROW32_WORDS(33) == 2 && TURNIPLOOM_ROW32_WORDS(1024) == 32);
    SHOW(TURNIPLOOM_ROW_WORDS(0) == 1 && TURNIPLOOM_ROW_WORDS(64) == 1 && TURNIPLOOM_ROW_WORDS(65) == 2 && TURNIPLOOM_ROW_WORDS(1024) == 16);
}

/* A negation and two Phis, with room as the macros give it. */
static void room(void) {
    uint16_t code[] = {TURNIPLOOM_LoadConst, 0, 0, 7, TURNIPLOOM_Minus, 0, 0, 8, TURNIPLOOM_Phi, 0, 0, 9, TURNIPLOOM_Phi, 0, 0, 10};
    uint8_t kinds[TURNIPLOOM_CONSTANTS_LEN(4, 1)] = {TURNIPLOOM_INT}, dead[TURNIPLOOM_MARKS_LEN(4)];
    uint64_t words[TURNIPLOOM_CONSTANTS_LEN(4, 1)] = {7};
    uint64_t landings[TURNIPLOOM_ENDS_LEN(4)];
    uint32_t phi_map[TURNIPLOOM_MARKS_LEN(4)] = {0}, remap[TURNIPLOOM_ENDS_LEN(4)], none[1] = {0};
    uint16_t sources[TURNIPLOOM_PHI_SOURCES_LEN(4, 2)] = {1, 2};
    turniploom_answer a;
    turniploom_set_chunk_marks(code, 16);
    a = turniploom_fold(code, 16, kinds, 5, words, 5, 1, phi_map, 4, 4, sources, TURNIPLOOM_PHI_SOURCES_LEN(4, 2), 2, none, 0, 0, none, 0, 0, dead, 4,
                        remap, TURNIPLOOM_ENDS_LEN(4), none, 0, landings, TURNIPLOOM_ENDS_LEN(4) - 1, false);
    SHOW(a.refusal == TURNIPLOOM_BUFFER && a.first == 7 && a.second == TURNIPLOOM_ENDS_LEN(4));
    a = turniploom_fold(code, 16, kinds, 5, words, 5, 1, phi_map, 4, 4, sources, TURNIPLOOM_PHI_SOURCES_LEN(4, 2), 2, none, 0, 0, none, 0, 0, dead, 4,
                        remap, TURNIPLOOM_ENDS_LEN(4), none, 0, landings, TURNIPLOOM_ENDS_LEN(4), false);
    SHOW(a.refusal == 0 && a.first == 3 && a.second == 2 && words[1] == (uint64_t)-7);
    SHOW(code[3] == 7 && code[7] == 9 && code[11] == 10 && code[15] == 0);
}

/* Code K replayed from a block that is made here, and from the same with a byte flipped. */
static void replayed(void) {
    static const uint32_t no_tries[1] = {0};
    uint8_t trace[512];
    uint64_t reads[4] = {9, 9, 9, 9};
    uint32_t check = 0, k;
    turniploom_answer a;
    memset(trace, 0xFF, sizeof trace);
    for (k = 0; k < 6; k++) { memset(trace + 4 * k, 0, 4); trace[4 * k] = (uint8_t)k; }
    for (k = 0; k < 508; k++) check += trace[k] * (k + 1);
    for (k = 0; k < 4; k++) trace[508 + k] = (uint8_t)(check >> (8 * k));
    trace[99] ^= 1;
    a = turniploom_replay(K, WORDS, 4, no_tries, 0, trace, 512, reads, 4);
    SHOW(a.refusal == TURNIPLOOM_CHECK && a.first == 0 && reads[0] == 9);
    trace[99] ^= 1;
    a = turniploom_replay(K, WORDS, 4, no_tries, 0, trace, 512, reads, 4);
    SHOW(a.refusal == 0 && a.first == 6 && a.second == 1 && reads[0] == 1 && reads[1] == 1 && reads[2] == 1 && reads[3] == 1);
    a = turniploom_replay(K, WORDS, 5, no_tries, 0, trace, 512, reads, 4);
    SHOW(a.refusal == TURNIPLOOM_BUFFER && a.first == 1 && a.second == 5);
}

/* The text of each refusal. */
static void texts(void) {
    static const uint8_t refusals[] = {TURNIPLOOM_CODE, TURNIPLOOM_RECORD, TURNIPLOOM_REGISTERS, TURNIPLOOM_TRY, TURNIPLOOM_BUFFER,
                                       TURNIPLOOM_POSITION, TURNIPLOOM_TABLE, TURNIPLOOM_ROOM, TURNIPLOOM_NOTHING, TURNIPLOOM_CHECK,
                                       TURNIPLOOM_FILLER, TURNIPLOOM_MOVE, TURNIPLOOM_TOTAL, TURNIPLOOM_LISTED, TURNIPLOOM_OFFSETS};
    size_t k;
    for (k = 0; k < sizeof refusals; k++) puts(turniploom_refusal_text(refusals[k]));
    puts(turniploom_refusal_text(0));
    puts(turniploom_refusal_text(200));
}

/* A saver of four registers: a level of K is entered twice, and left both ways. */
static void saver(void) {
    static uint64_t area[TURNIPLOOM_SAVER_AREA];
    uint64_t head[TURNIPLOOM_SAVER_HEAD], file[TURNIPLOOM_SAVER_FILE] = {30, 31, 32, 33};
    static const uint16_t list[] = {0, 3}, twice[] = {3, 0, 3};
    turniploom_answer level = turniploom_level(K, WORDS, 2), a;
    SHOW(level.first == 1 && level.second == 3 && level.third == 2 && turniploom_level(K, WORDS, 3).first == 0);
    SHOW(turniploom_saver_make(head, 65).refusal == TURNIPLOOM_REGISTERS && turniploom_saver_make(head, 4).refusal == 0);
    SHOW(turniploom_saver_exception(head, area, file).refusal == TURNIPLOOM_NOTHING);
    a = turniploom_saver_enter(head, area, file, twice, 3, level.third);
    SHOW(a.refusal == TURNIPLOOM_LISTED && a.first == 2 && head[1] == 0);
    SHOW(turniploom_saver_enter(head, area, file, list, 2, level.third).first == TURNIPLOOM_SAVER_ENTRY(2));
    file[0] = file[3] = 7;
    SHOW(turniploom_saver_enter(head, area, file, list, 1, TURNIPLOOM_NO_REGISTER).first == TURNIPLOOM_SAVER_ENTRY(2) + TURNIPLOOM_SAVER_ENTRY(1));
    file[0] = 9;
    SHOW(turniploom_saver_exception(head, area, file).first == TURNIPLOOM_SAVER_ENTRY(2) && file[0] == 7 && file[2] == 32);
    SHOW(turniploom_saver_return(head, area, file, 5).first == 0 && file[0] == 30 && file[2] == 5 && file[3] == 33 && file[1] == 31);
    head[1] = TURNIPLOOM_SAVER_AREA - TURNIPLOOM_SAVER_ENTRY(2) + 1;
    a = turniploom_saver_enter(head, area, file, list, 2, level.third);
    SHOW(a.refusal == TURNIPLOOM_ROOM && a.first == TURNIPLOOM_SAVER_ENTRY(2) - 1);
}

/* K's figures, added twice and joined with themselves. */
static void figures(void) {
    static const uint32_t offsets[] = {0, 0, 0, 1, 1, 1, 1}, fall[] = {0, 0, 0, 1, 0, 1, 1};
    static const uint16_t list[] = {0};
    static const uint64_t both[TURNIPLOOM_REPORT] = {4, 4, 4, 1, 1, 0, 2};
    uint64_t report[TURNIPLOOM_REPORT] = {0}, later[TURNIPLOOM_REPORT];
    turniploom_answer a = turniploom_figures_add(K, WORDS, offsets, 7, list, 1, report);
    SHOW(a.refusal == 0 && a.first == 1 && a.second == 1 && a.third == 1 && a.fourth == 1);
    a = turniploom_figures_add(K, WORDS, offsets, 7, list, 1, report);
    SHOW(a.third == 2 && a.fourth == 2 && report[0] == 2 && report[5] == 0 && report[6] == 2);
    a = turniploom_figures_add(K, WORDS, fall, 7, list, 1, report);
    SHOW(a.refusal == TURNIPLOOM_OFFSETS && a.first == 3 && report[0] == 2);
    memcpy(later, report, sizeof later);
    SHOW(turniploom_figures_join(later, report).fourth == 4 && memcmp(report, both, sizeof both) == 0);
    later[2] = UINT64_MAX;
    a = turniploom_figures_join(later, report);
    SHOW(a.refusal == TURNIPLOOM_TOTAL && a.first == 3 && memcmp(report, both, sizeof both) == 0);
}

int main(void) {
    marks();
    replayed();
    texts();
    lengths();
    room();
    saver();
    figures();
    SHOW(turniploom_kinds(K, WORDS, 4).first == 13);
    turniploom_answer refused = turniploom_kinds(K, WORDS - 1, 4);
    SHOW(refused.refusal == TURNIPLOOM_CODE && refused.first == WORDS - 1 && refused.second == 0);
    refused = turniploom_kinds(K, WORDS, 6);
    SHOW(refused.refusal == TURNIPLOOM_POSITION && refused.first == 6);
    turniploom_answer role = turniploom_role(K, WORDS, 4);
    SHOW(role.refusal == 0 && role.first == 1 && role.second == 1 && role.third == 6 && role.fourth == 0);
    SHOW(turniploom_writes(K, WORDS, 4, 3).first == 1 && turniploom_writes(K, WORDS, 4, 0).first == 0);
    turniploom_answer callee = turniploom_global_of(K, WORDS, 2);
    SHOW(callee.first == 1 && callee.second == 9);
    SHOW(turniploom_pure(K, WORDS).first == 1);
    static const uint32_t try_to_5[] = {1, 5};
    uint8_t landed[7];
    SHOW(turniploom_targets(K, WORDS, try_to_5, 2, landed, 7).refusal == 0 && landed[5] == 1 && landed[4] == 0);
    static const uint32_t try_1_5[] = {1, 5};
    static const uint64_t p1[] = {0, 0, 3, 1, 5, 8, 0};
    uint64_t rows[7];
    uint32_t offsets[7];
    uint16_t list[2] = {9, 9};
    turniploom_answer kept = turniploom_kept(K, WORDS, 4, try_1_5, 0, false, rows, 7, offsets, 7, list, 2);
    SHOW(kept.refusal == 0 && kept.first == 1 && kept.second == 1 && kept.third == 0);
    SHOW(memcmp(rows, p1, sizeof p1) == 0 && offsets[2] == 0 && offsets[3] == 1 && list[0] == 0 && list[1] == 9);
    kept = turniploom_kept(K, WORDS, 4, try_1_5, 2, false, rows, 7, offsets, 7, list, 1);
    SHOW(kept.refusal == TURNIPLOOM_BUFFER && kept.first == 3 && kept.second == 2);
    kept = turniploom_kept(K, WORDS, 4, try_1_5, 2, false, rows, 7, offsets, 7, list, 2);
    SHOW(kept.refusal == 0 && kept.first == 2 && list[0] == 0 && list[1] == 3);
    uint16_t chunk[] = {TURNIPLOOM_LoadConst, TURNIPLOOM_NAMES_CONSTANT, 0, 0, TURNIPLOOM_LoadConst, TURNIPLOOM_NAMES_CONSTANT, 1, 1,
                        TURNIPLOOM_Add, 0, 0, 2, TURNIPLOOM_Jump, TURNIPLOOM_IS_JUMP, 2, 3};
    static const uint16_t p13[4 * TURNIPLOOM_CHUNK_WORDS] = {TURNIPLOOM_LoadConst, TURNIPLOOM_NAMES_CONSTANT, 2, 0,
                                                             TURNIPLOOM_Jump, TURNIPLOOM_IS_JUMP, 1, 3};
    uint8_t kinds[3] = {TURNIPLOOM_INT, TURNIPLOOM_INT, 0}, dead[4];
    uint64_t words[3] = {2, 3, 0};
    uint32_t phi_map[4] = {0}, remap[5], none[1], tries[4] = {0, 1, 2, 1};
    uint64_t landings[5];
    uint16_t phi_sources[1];
    turniploom_answer folded = turniploom_fold(chunk, 16, kinds, 3, words, 3, 2, phi_map, 4, 0, phi_sources, 0, 0, none, 0, 0, none, 0, 0,
                                               dead, 4, remap, 5, tries, 4, landings, 5, true);
    SHOW(folded.refusal == TURNIPLOOM_TRY && folded.first == 1);
    folded = turniploom_fold(chunk, 16, kinds, 3, words, 3, 2, phi_map, 4, 0, phi_sources, 0, 0, none, 0, 0, none, 0, 0, dead, 4, remap, 5, tries, 2,
                             landings, 5, true);
    SHOW(folded.refusal == 0 && folded.first == 4 && folded.second == 2);
    SHOW(tries[1] == 1 && landings[0] == 0 && landings[1] == 1 && landings[2] == 1 && landings[3] == 0 && landings[4] == 0);
    folded = turniploom_fold(chunk, 16, kinds, 3, words, 3, 2, phi_map, 4, 0, phi_sources, 0, 0, none, 0, 0, none, 0, 0, dead, 4, remap, 5, tries, 2,
                             landings, 5, false);
    SHOW(tries[0] == 0 && tries[1] == 1 && landings[0] == 0 && landings[1] == 2 && landings[2] == 0 && landings[4] == 0);
    SHOW(folded.refusal == 0 && folded.first == 2 && folded.second == 3 && memcmp(chunk, p13, sizeof p13) == 0);
    SHOW(kinds[2] == TURNIPLOOM_INT && words[2] == 5 && dead[0] == 0 && dead[1] == 1 && dead[2] == 1 && dead[3] == 0 && remap[4] == 2);
    /* The fold left one load, so one constant is shipped. */
    uint32_t scratch[3];
    turniploom_answer cleared = turniploom_clear(chunk, 16, kinds, 3, words, 3, 3, scratch, 2);
    SHOW(cleared.refusal == TURNIPLOOM_BUFFER && cleared.first == 1 && cleared.second == 3 && chunk[2] == 2);
    cleared = turniploom_clear(chunk, 8, kinds, 3, words, 3, 3, scratch, 3);
    SHOW(cleared.refusal == 0 && cleared.first == 1 && chunk[2] == 0 && chunk[6] == 1 && chunk[7] == 3 && words[0] == 5 && words[1] == 0 && kinds[2] == 0);
    SHOW(scratch[0] == 0 && scratch[1] == 0 && scratch[2] == 0);
    puts(failed ? "not all is well" : "all is well");
    return failed;
}

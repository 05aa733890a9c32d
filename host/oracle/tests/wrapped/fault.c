/* A wrapped archive: turniploom_kept does what the archive's own does, then the fault that TURNIPLOOM_FAULT names. */
#include "turniploom.h"
#include <stdlib.h>
#include <string.h>

turniploom_answer own_kept(const uint16_t *code, size_t code_len, size_t regs, const uint32_t *tries, size_t tries_len, bool wide,
                           uint64_t *rows, size_t rows_len, uint32_t *offsets, size_t offsets_len, uint16_t *list, size_t list_len);

turniploom_answer turniploom_kept(const uint16_t *code, size_t code_len, size_t regs, const uint32_t *tries, size_t tries_len, bool wide,
                                  uint64_t *rows, size_t rows_len, uint32_t *offsets, size_t offsets_len, uint16_t *list, size_t list_len) {
    const char *fault = getenv("TURNIPLOOM_FAULT");
    turniploom_answer a = own_kept(code, code_len, regs, tries, tries_len, wide, rows, rows_len, offsets, offsets_len, list, list_len);
    if (fault == NULL || a.refusal != 0 || tries_len < 4) return a;
    if (strcmp(fault, "answer") == 0 && a.first > 2) list[2] ^= 1;
    if (strcmp(fault, "tries") == 0) ((uint32_t *)tries)[3] += 1;
    if (strcmp(fault, "beside") == 0) ((uint32_t *)tries)[tries_len] = 7;
    return a;
}

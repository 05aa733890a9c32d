/* The proved calls of turniploom, for C. Link with libturniploom.a, which `.ci/archive` makes.
 *
 * A slice is a pointer and a length in elements, an array whose length is fixed a pointer. No call asks anything of its input but
 * that each pointer has as many elements as its length says (a length of 0 may come with any pointer that is not null), that buffers
 * lent to be written do not overlap anything else, and that a bool is one. Nothing is allocated. No call needs more than 4 KiB of
 * stack, but kept_raising 6. docs/BUFFERS.md has the order of the tests and what each buffer holds afterwards. */
#ifndef TURNIPLOOM_H
#define TURNIPLOOM_H

#include <stdbool.h>
#include <stddef.h>
#include <stdint.h>

/* The version of the calls that this header declares. */
#define TURNIPLOOM_VERSION_MAJOR 0
#define TURNIPLOOM_VERSION_MINOR 2
#define TURNIPLOOM_VERSION_PATCH 0
#define TURNIPLOOM_VERSION "0.2.0"

/* The words of an instruction, of code and of a chunk, and the limits of what is lent. */
#define TURNIPLOOM_CODE_WORDS 6
#define TURNIPLOOM_CHUNK_WORDS 4
#define TURNIPLOOM_MOST_INSTRUCTIONS 65535
#define TURNIPLOOM_MOST_REGISTERS 1024
#define TURNIPLOOM_MOST_CONSTANTS 65536

/* The words of a saver's three arrays, each lent as one pointer: head and area are its own, file is the registers. An entry takes twice its
 * list plus two words of the area. And the number of the result register where there is none. */
#define TURNIPLOOM_SAVER_HEAD 2
#define TURNIPLOOM_SAVER_AREA 4096
#define TURNIPLOOM_SAVER_FILE 64
#define TURNIPLOOM_SAVER_ENTRY(listed) (2 * (size_t)(listed) + 2)
#define TURNIPLOOM_NO_REGISTER 65536

/* The words of a report of figures. */
#define TURNIPLOOM_REPORT 7

/* Lengths that are always enough, for n instructions: seen, todo, out, offsets, remap and landings; rows; a list, whose needed length a
 * refusal also tells; kinds and words of a fold; its phi_map and dead marks; its phi_sources, of which `words` are in use. */
#define TURNIPLOOM_ENDS_LEN(n) ((size_t)(n) + 1)
#define TURNIPLOOM_ROW_WORDS(regs) ((size_t)(regs) <= 64 ? (size_t)1 : ((size_t)(regs) + 63) / 64)
#define TURNIPLOOM_ROWS_LEN(n, regs) (((size_t)(n) + 1) * TURNIPLOOM_ROW_WORDS(regs))
#define TURNIPLOOM_LIST_LEN(n, regs) ((size_t)(n) * (size_t)(regs))
#define TURNIPLOOM_CONSTANTS_LEN(n, count) ((size_t)(n) + (size_t)(count))
#define TURNIPLOOM_MARKS_LEN(n) ((size_t)(n))
#define TURNIPLOOM_PHI_SOURCES_LEN(n, words) (2 * (size_t)(n) > (size_t)(words) ? 2 * (size_t)(n) : (size_t)(words))

/* The same for rows of 32 bits. */
#define TURNIPLOOM_ROW32_WORDS(regs) ((size_t)(regs) <= 32 ? (size_t)1 : ((size_t)(regs) + 31) / 32)
#define TURNIPLOOM_ROWS32_LEN(n, regs) (((size_t)(n) + 1) * TURNIPLOOM_ROW32_WORDS(regs))

#ifdef __cplusplus
extern "C" {
#endif

/* What every call returns. `refusal` is 0 for an answer, else one of the numbers below; `first` and `second` are then what the
 * refusal also returns. A value that is not used is 0. */
typedef struct {
    uint8_t refusal;
    uint64_t first, second, third, fourth;
} turniploom_answer;

enum turniploom_refusal {
    TURNIPLOOM_CODE = 1,      /* length no multiple of the stride, or too many instructions: length */
    TURNIPLOOM_RECORD = 2,    /* an instruction breaks a record rule: first position */
    TURNIPLOOM_REGISTERS = 3, /* more than 1,024 registers, or more than 64 in a saver: the number */
    TURNIPLOOM_TRY = 4,       /* a try breaks its rule: first index */
    TURNIPLOOM_BUFFER = 5,    /* a lent buffer is too short: buffer, length needed */
    TURNIPLOOM_POSITION = 6,  /* a position at the end or beyond, or not one of the four calls: position */
    TURNIPLOOM_TABLE = 7,     /* a table of the chunk breaks its rule: table number */
    TURNIPLOOM_ROOM = 8,      /* the save area has no room for an entry: its free words */
    TURNIPLOOM_NOTHING = 9,   /* a call is left, and none is entered */
    TURNIPLOOM_CHECK = 10,    /* a block of a trace is cut short, or its check is wrong: first block */
    TURNIPLOOM_FILLER = 11,   /* a trace has a filler before a position: the position's block */
    TURNIPLOOM_MOVE = 12,     /* a trace does not begin at 0, or takes a step that the code does not allow: first step */
    TURNIPLOOM_TOTAL = 13,    /* a total would pass 64 bits: 1 bodies, 2 levels, 3 kept registers, 4 the number of a body */
    TURNIPLOOM_LISTED = 14,   /* a listed register is not in the file, or is listed twice: its place in the list */
    TURNIPLOOM_OFFSETS = 15   /* the offsets are not those of this code and its list: first place */
};

/* Marks of an instruction: six words, opcode, marks, a, b, c, x. They stand for the Rust's `lower::wide`, `lower::dunder_op` and
 * `is_register`, and answers hang on them: a wide call without its mark seems to resume at its ArgsR, and an opcode that a dunder may run
 * is no level without its mark, so a register that must be kept is lost. turniploom_set_marks, below, sets them. */
enum turniploom_mark { TURNIPLOOM_WIDE = 1, TURNIPLOOM_DUNDER = 2, TURNIPLOOM_IS_REGISTER = 4 };

/* The marks of a chunk's instruction: four words, opcode, marks, operand, origin. Every LoadConst names a constant; a jump, a Phi and a
 * folding operator never do. A jump without its mark keeps its old target when the code shrinks; turniploom_set_chunk_marks sets both. */
enum turniploom_chunk_mark { TURNIPLOOM_IS_JUMP = 1, TURNIPLOOM_NAMES_CONSTANT = 2 };

/* The kind of a constant. */
enum turniploom_kind { TURNIPLOOM_OTHER = 0, TURNIPLOOM_INT = 1, TURNIPLOOM_FLOAT = 2, TURNIPLOOM_BOOL = 3 };

/* The calls. A refusal's first and second are told above; a value that is not named is 0. n is the number of instructions. */

/* The role of an instruction as bits.
 * first: 1 writes a; 2, 4, 8 reads a, b, c; 16 jumps to a; 32 no role. */
turniploom_answer turniploom_kinds(const uint16_t *code, size_t code_len, size_t at);

/* The role of an instruction.
 * first: 1 if it has one, else 0; second: 1 if a is written; third: the fields that are read, bit 0 a, 1 b, 2 c; fourth: 1 if a is a jump's
 * target. */
turniploom_answer turniploom_role(const uint16_t *code, size_t code_len, size_t at);

/* A field of an instruction: a for f of 0, b for 1, else c.
 * first: the field. */
turniploom_answer turniploom_field(const uint16_t *code, size_t code_len, size_t at, uint8_t f);

/* Whether an instruction writes register r.
 * first: 1 if so, else 0. */
turniploom_answer turniploom_writes(const uint16_t *code, size_t code_len, size_t at, uint16_t r);

/* Whether code may be laid as a section.
 * first: 1 if so, else 0. */
turniploom_answer turniploom_pure(const uint16_t *code, size_t code_len);

/* Whether laid code leaves nothing of its own on the stack.
 * first: 1 if so, else 0. */
turniploom_answer turniploom_flat(const uint16_t *code, size_t code_len);

/* Whether code has a try or a with.
 * first: 1 if so, else 0. */
turniploom_answer turniploom_guarded(const uint16_t *code, size_t code_len);

/* Whether a PushRegs pushes the value that a ReturnValue returns.
 * first: 1 if so, else 0. */
turniploom_answer turniploom_returns(const uint16_t *code, size_t code_len, size_t at);

/* The parameters, the first arity registers, that some instruction writes.
 * first: a bit for each, of the first 64. */
turniploom_answer turniploom_params_written(const uint16_t *code, size_t code_len, size_t arity);

/* The parameters that a call passes on as they are.
 * first: a bit for each. */
turniploom_answer turniploom_passed(const uint16_t *code, size_t code_len, size_t at, size_t arity);

/* Whether a generator's body may be laid as a section. seen and todo are n + 1 long, and 0 after an answer.
 * first: 1 if so, else 0. */
turniploom_answer turniploom_gen_pure(const uint16_t *code, size_t code_len, uint8_t *seen, size_t seen_len, uint32_t *todo,
                                      size_t todo_len);

/* Whether what a Phi writes to r is read on no path. seen and todo are n + 1 long, and 0 after an answer.
 * first: 1 if so, else 0. */
turniploom_answer turniploom_dead_phi(const uint16_t *code, size_t code_len, size_t at, uint16_t r, uint8_t *seen, size_t seen_len,
                                      uint32_t *todo, size_t todo_len);

/* For each position and the end, how many for loops it lies inside. out is n + 1 long. */
turniploom_answer turniploom_loops_around(const uint16_t *code, size_t code_len, uint32_t *out, size_t out_len);

/* For each position and the end, 1 if a jump or a handler lands there, else 0. out is n + 1 long. */
turniploom_answer turniploom_targets(const uint16_t *code, size_t code_len, const uint32_t *tries, size_t tries_len, uint8_t *out,
                                     size_t out_len);

/* The module binding that a call calls.
 * first: 1 if it is found, else 0; second: the binding. */
turniploom_answer turniploom_global_of(const uint16_t *code, size_t code_len, size_t at);

/* The PushRegs that pushed what a StoreTopR takes back into r past a call.
 * first: 1 if it is found, else 0; second: its position. */
turniploom_answer turniploom_pushed_back(const uint16_t *code, size_t code_len, size_t at, uint16_t r);

/* The PushRegs that pushed the function of a stack call with count positionals.
 * first: 1 if it is found, else 0; second: its position; third: the register. */
turniploom_answer turniploom_stack_callee(const uint16_t *code, size_t code_len, size_t at, uint16_t count);

/* The registers kept at each level. rows is (n + 1) times the words of a row long, offsets n + 1. A list too short is refused with the
 * length it needs, and the rows are then found. The list of position k begins at entry k of offsets and ends at the next.
 * first: the length of the list; second: full sweeps; third: abandoned sweeps. */
turniploom_answer turniploom_kept(const uint16_t *code, size_t code_len, size_t regs, const uint32_t *tries, size_t tries_len, bool wide,
                                  uint64_t *rows, size_t rows_len, uint32_t *offsets, size_t offsets_len, uint16_t *list, size_t list_len);

/* Folds a chunk. kinds and words need max(count, min(65,535, count + folding operators)) entries, phi_map n, phi_sources two for each pair
 * or Phi, dead n, remap and landings n + 1. The counts of pair tables are in words. tries are pairs of a start and a handler, and follow
 * the code. In strict mode nothing folds that a jump or a handler lands in. Entry t of landings is then how many of both land on position t
 * of what is left. Instructions keep their origins.
 * first: instructions; second: constants; third: entries of phi_map; fourth: words of phi_sources. */
turniploom_answer turniploom_fold(uint16_t *code, size_t code_len, uint8_t *kinds, size_t kinds_len, uint64_t *words, size_t words_len,
                                  size_t constants, uint32_t *phi_map, size_t phi_map_len, size_t phi_map_count, uint16_t *phi_sources,
                                  size_t phi_sources_len, size_t phi_sources_count, uint32_t *stmt_pos, size_t stmt_pos_len,
                                  size_t stmt_pos_count, uint32_t *call_byte_pos, size_t call_byte_pos_len, size_t call_byte_pos_count,
                                  uint8_t *dead, size_t dead_len, uint32_t *remap, size_t remap_len, uint32_t *tries, size_t tries_len,
                                  uint64_t *landings, size_t landings_len, bool strict);

/* Drops the constants that no instruction names; the others keep their order, what names them is renumbered, and freed entries are 0.
 * scratch needs an entry for each constant, and then holds how many named ones stand before it.
 * first: constants left. */
turniploom_answer turniploom_clear(uint16_t *code, size_t code_len, uint8_t *kinds, size_t kinds_len, uint64_t *words, size_t words_len,
                                   size_t constants, uint32_t *scratch, size_t scratch_len);

/* kept with rows of 32 bits: rows is (n + 1) times max(1, registers / 32 rounded up) long, offsets and list are the same. With more than 32
 * registers the counts of sweeps and the rows before the first level may be others.
 * first: the length of the list; second: full sweeps; third: abandoned sweeps. */
turniploom_answer turniploom_kept32(const uint16_t *code, size_t code_len, size_t regs, const uint32_t *tries, size_t tries_len, bool wide,
                                    uint32_t *rows, size_t rows_len, uint32_t *offsets, size_t offsets_len, uint16_t *list,
                                    size_t list_len);

/* Where the level at a position goes on once its call is over, and which register has the result.
 * first: 1 if it is a level, else 0; second: where it resumes; third: its result register, or 65,536 for none. */
turniploom_answer turniploom_level(const uint16_t *code, size_t code_len, size_t at);

/* Makes a saver of regs registers, at most 64, with nothing saved. A saver is three arrays, the same for every call: head, 2 words, and
 * area, 4,096, are its own; file, 64, is the registers, which a host writes between the calls as it likes. */
turniploom_answer turniploom_saver_make(uint64_t *head, size_t regs);

/* Puts the listed registers aside as a call is entered: the list that kept has for its level, and the result register that level tells.
 * first: words in use. */
turniploom_answer turniploom_saver_enter(uint64_t *head, uint64_t *area, const uint64_t *file, const uint16_t *list, size_t list_len,
                                         uint64_t result);

/* Puts them back as the newest call returns, and writes its value to the result register, if that is in the file.
 * first: words in use. */
turniploom_answer turniploom_saver_return(uint64_t *head, const uint64_t *area, uint64_t *file, uint64_t value);

/* Puts them back as the newest call is left by an exception.
 * first: words in use. */
turniploom_answer turniploom_saver_exception(uint64_t *head, const uint64_t *area, uint64_t *file);

/* Adds a body to a report: its code and its answer from kept, the list cut to the length that was told. A report is seven words, all 0 for
 * no body: bodies, levels, kept registers, the longest list, 1 if there is a level, and body and position of the first list so long.
 * first: this body's levels; second: its kept registers; third: all kept registers; fourth: all levels: the mean list length is third /
 * fourth. */
turniploom_answer turniploom_figures_add(const uint16_t *code, size_t code_len, const uint32_t *offsets, size_t offsets_len,
                                         const uint16_t *list, size_t list_len, uint64_t *report);

/* Joins the report of a later group of bodies to that of an earlier one, which becomes that of both.
 * third: all kept registers; fourth: all levels. */
turniploom_answer turniploom_figures_join(const uint64_t *later, uint64_t *report);

/* Replays a recorded day. The trace is blocks of 512 bytes: 127 visited positions of 32 bits, little-endian, 0xFFFFFFFF as filler at the
 * end alone, and the sum of the 508 bytes, each times its place from 1. reads needs an entry for each register, and then holds how many
 * steps used it. A trace that is no run of the code is refused, and nothing is written.
 * first: steps; second: levels met. */
turniploom_answer turniploom_replay(const uint16_t *code, size_t code_len, size_t regs, const uint32_t *tries, size_t tries_len,
                                    const uint8_t *trace, size_t trace_len, uint64_t *reads, size_t reads_len);

/* What an instruction by itself touches: registers used and given up as the rows have them, and written as writes has them.
 * first: the fields it uses, bit 0 a, 1 b, 2 c; second: the fields it gives up; third: the fields it writes; fourth: how many registers
 * from b on it gives up and writes besides: 0, 2 or 5. */
turniploom_answer turniploom_touched(const uint16_t *code, size_t code_len, size_t at);

/* Whether register r is needed at a position: some path from there uses it before it gives it up. The end may be asked about, where none
 * is. seen and todo are n + 1 long, and 0 after an answer.
 * first: 1 if so, else 0. */
turniploom_answer turniploom_needed(const uint16_t *code, size_t code_len, size_t regs, size_t at, uint16_t r, uint8_t *seen,
                                    size_t seen_len, uint32_t *todo, size_t todo_len);

/* kept where calls may raise later on: a row has whole the rows of the handlers around its position too, if the position is a level, or
 * whatever it is if all. Buffers, routes and sweeps as of kept.
 * first: the length of the list; second: full sweeps; third: abandoned sweeps. */
turniploom_answer turniploom_kept_raising(const uint16_t *code, size_t code_len, size_t regs, const uint32_t *tries, size_t tries_len,
                                          bool all, uint64_t *rows, size_t rows_len, uint32_t *offsets, size_t offsets_len, uint16_t *list,
                                          size_t list_len);

/* The registers of a list that another has not, in order, at the front of out: of one level's lists by kept_raising and by kept, those that
 * a later exception needs and kept does not keep. out is as long as list.
 * first: how many. */
turniploom_answer turniploom_exposed(const uint16_t *plain, size_t plain_len, const uint16_t *list, size_t list_len, uint16_t *out,
                                     size_t out_len);

/* The version of the calls, as the header has it: that of the archive which is linked. It is never refused.
 * first: major; second: minor; third: patch. */
turniploom_answer turniploom_version(void);

/* Opcode numbers, as docs/OPCODES.md lists them. 0 is any other. */
enum turniploom_opcode {
    TURNIPLOOM_LoadConst = 2, TURNIPLOOM_LoadName = 4, TURNIPLOOM_StoreName = 6, TURNIPLOOM_Call = 8, TURNIPLOOM_PopTop = 10,
    TURNIPLOOM_ReturnValue = 12, TURNIPLOOM_BuildString = 14, TURNIPLOOM_CallPrint = 16, TURNIPLOOM_CallLen = 18,
    TURNIPLOOM_FormatValue = 20, TURNIPLOOM_CallAbs = 22, TURNIPLOOM_Minus = 24, TURNIPLOOM_CallStr = 26,
    TURNIPLOOM_CallInt = 28, TURNIPLOOM_CallRange = 30, TURNIPLOOM_Phi = 32, TURNIPLOOM_CallChr = 34, TURNIPLOOM_CallType = 36,
    TURNIPLOOM_MakeFunction = 38, TURNIPLOOM_Add = 40, TURNIPLOOM_Sub = 42, TURNIPLOOM_Mul = 44, TURNIPLOOM_Div = 46,
    TURNIPLOOM_Eq = 48, TURNIPLOOM_CallFloat = 50, TURNIPLOOM_CallBool = 52, TURNIPLOOM_CallRound = 54, TURNIPLOOM_CallMin = 56,
    TURNIPLOOM_CallMax = 58, TURNIPLOOM_CallSum = 60, TURNIPLOOM_CallEnumerate = 62, TURNIPLOOM_CallZip = 64,
    TURNIPLOOM_CallList = 66, TURNIPLOOM_CallTuple = 68, TURNIPLOOM_CallDict = 70, TURNIPLOOM_CallIsInstance = 72,
    TURNIPLOOM_CallSet = 74, TURNIPLOOM_CallInput = 76, TURNIPLOOM_CallOrd = 78, TURNIPLOOM_BuildDict = 80,
    TURNIPLOOM_BuildList = 82, TURNIPLOOM_NotEq = 84, TURNIPLOOM_Lt = 86, TURNIPLOOM_Gt = 88, TURNIPLOOM_LtEq = 90,
    TURNIPLOOM_GtEq = 92, TURNIPLOOM_Not = 94, TURNIPLOOM_JumpIfFalse = 96, TURNIPLOOM_Jump = 98, TURNIPLOOM_GetIter = 100,
    TURNIPLOOM_ForIter = 102, TURNIPLOOM_GetItem = 104, TURNIPLOOM_Mod = 106, TURNIPLOOM_Pow = 108, TURNIPLOOM_FloorDiv = 110,
    TURNIPLOOM_LoadTrue = 112, TURNIPLOOM_LoadFalse = 114, TURNIPLOOM_LoadNone = 116, TURNIPLOOM_LoadAttr = 118,
    TURNIPLOOM_StoreAttr = 120, TURNIPLOOM_BuildSlice = 122, TURNIPLOOM_SetupExcept = 124, TURNIPLOOM_PopExcept = 126,
    TURNIPLOOM_Raise = 128, TURNIPLOOM_BitAnd = 130, TURNIPLOOM_BitOr = 132, TURNIPLOOM_BitXor = 134, TURNIPLOOM_BitNot = 136,
    TURNIPLOOM_Shl = 138, TURNIPLOOM_Shr = 140, TURNIPLOOM_In = 142, TURNIPLOOM_NotIn = 144, TURNIPLOOM_Is = 146,
    TURNIPLOOM_IsNot = 148, TURNIPLOOM_UnpackSequence = 150, TURNIPLOOM_BuildTuple = 152, TURNIPLOOM_WithEnter = 154,
    TURNIPLOOM_WithExit = 156, TURNIPLOOM_Yield = 158, TURNIPLOOM_SetupFinally = 160, TURNIPLOOM_BeginFinally = 162,
    TURNIPLOOM_EndFinally = 164, TURNIPLOOM_Del = 166, TURNIPLOOM_Assert = 168, TURNIPLOOM_UnpackArgs = 170,
    TURNIPLOOM_ListAppend = 172, TURNIPLOOM_SetAdd = 174, TURNIPLOOM_MapAdd = 176, TURNIPLOOM_BuildSet = 178,
    TURNIPLOOM_LoadEllipsis = 180, TURNIPLOOM_MakeCoroutine = 182, TURNIPLOOM_StoreItem = 184, TURNIPLOOM_Dup2 = 186,
    TURNIPLOOM_JumpIfFalseOrPop = 188, TURNIPLOOM_JumpIfTrueOrPop = 190, TURNIPLOOM_Dup = 1, TURNIPLOOM_CallMethod = 3,
    TURNIPLOOM_CallMethodArgs = 5, TURNIPLOOM_CallAll = 7, TURNIPLOOM_CallAny = 9, TURNIPLOOM_CallBin = 11,
    TURNIPLOOM_CallOct = 13, TURNIPLOOM_CallHex = 15, TURNIPLOOM_CallDivmod = 17, TURNIPLOOM_CallPow = 19,
    TURNIPLOOM_CallRepr = 21, TURNIPLOOM_CallReversed = 23, TURNIPLOOM_PopIter = 25, TURNIPLOOM_DelItem = 27,
    TURNIPLOOM_DelAttr = 29, TURNIPLOOM_DictUpdate = 31, TURNIPLOOM_SetUpdate = 33, TURNIPLOOM_ListExtend = 35,
    TURNIPLOOM_MatchSeq = 37, TURNIPLOOM_InPlaceAdd = 39, TURNIPLOOM_InPlaceSub = 41, TURNIPLOOM_LoadYieldFrom = 43,
    TURNIPLOOM_BeginArgs = 45, TURNIPLOOM_WithJudge = 47, TURNIPLOOM_Swap = 49, TURNIPLOOM_MatchClass = 51,
    TURNIPLOOM_MatchMap = 53, TURNIPLOOM_CallSpread = 55, TURNIPLOOM_Move = 57, TURNIPLOOM_PushRegs = 59, TURNIPLOOM_AddR = 61,
    TURNIPLOOM_SubR = 63, TURNIPLOOM_MulR = 65, TURNIPLOOM_DivR = 67, TURNIPLOOM_ModR = 69, TURNIPLOOM_FloorDivR = 71,
    TURNIPLOOM_InPlaceAddR = 73, TURNIPLOOM_InPlaceSubR = 75, TURNIPLOOM_BitAndR = 77, TURNIPLOOM_BitOrR = 79,
    TURNIPLOOM_BitXorR = 81, TURNIPLOOM_ShlR = 83, TURNIPLOOM_ShrR = 85, TURNIPLOOM_PowR = 87, TURNIPLOOM_EqR = 89,
    TURNIPLOOM_NotEqR = 91, TURNIPLOOM_LtR = 93, TURNIPLOOM_LtEqR = 95, TURNIPLOOM_GtR = 97, TURNIPLOOM_GtEqR = 99,
    TURNIPLOOM_MinusR = 101, TURNIPLOOM_NotR = 103, TURNIPLOOM_JumpIfFalseR = 105, TURNIPLOOM_ReturnR = 107,
    TURNIPLOOM_GetItemR = 109, TURNIPLOOM_StoreItemR = 111, TURNIPLOOM_GetAttrR = 113, TURNIPLOOM_SetAttrR = 115,
    TURNIPLOOM_LoadGlobalR = 117, TURNIPLOOM_StoreGlobalR = 119, TURNIPLOOM_LoadCellR = 121, TURNIPLOOM_StoreCellR = 123,
    TURNIPLOOM_InR = 125, TURNIPLOOM_NotInR = 127, TURNIPLOOM_IsR = 129, TURNIPLOOM_IsNotR = 131, TURNIPLOOM_LenR = 133,
    TURNIPLOOM_ListAppendR = 135, TURNIPLOOM_SetAddR = 137, TURNIPLOOM_MapAddR = 139, TURNIPLOOM_UnpackR = 141,
    TURNIPLOOM_StoreTopR = 143, TURNIPLOOM_ForIterR = 145, TURNIPLOOM_JumpUnlessEq = 147, TURNIPLOOM_JumpUnlessNotEq = 149,
    TURNIPLOOM_JumpUnlessLt = 151, TURNIPLOOM_JumpUnlessLtEq = 153, TURNIPLOOM_JumpUnlessGt = 155,
    TURNIPLOOM_JumpUnlessGtEq = 157, TURNIPLOOM_CallR = 159, TURNIPLOOM_CallMethodR = 161, TURNIPLOOM_ArgsR = 163,
    TURNIPLOOM_AppendR = 165, TURNIPLOOM_OwnResetR = 167, TURNIPLOOM_CallGlobalR = 169, TURNIPLOOM_CallSectionR = 171,
    TURNIPLOOM_SectionR = 173, TURNIPLOOM_LoadGlobalAtR = 175, TURNIPLOOM_StoreGlobalAtR = 177, TURNIPLOOM_UnbindR = 179,
    TURNIPLOOM_SuperR = 181, TURNIPLOOM_WrapCellR = 183, TURNIPLOOM_CallValueR = 185, TURNIPLOOM_CallSpreadR = 187,
    TURNIPLOOM_ListPushR = 189
};

/* What a refusal says, whatever was lent. */
static inline const char *turniploom_refusal_text(uint8_t refusal) {
    switch (refusal) {
    case 0: return "no refusal";
    case TURNIPLOOM_CODE: return "the code is no whole number of instructions, or has more than 65,535";
    case TURNIPLOOM_RECORD: return "an instruction breaks a record rule";
    case TURNIPLOOM_REGISTERS: return "there are more than 1,024 registers, or more than 64 in a saver";
    case TURNIPLOOM_TRY: return "a try breaks its rule";
    case TURNIPLOOM_BUFFER: return "a lent buffer is too short";
    case TURNIPLOOM_POSITION: return "the position is not one to ask about";
    case TURNIPLOOM_TABLE: return "a table of the chunk breaks its rule";
    case TURNIPLOOM_ROOM: return "the save area has no room for the entry";
    case TURNIPLOOM_NOTHING: return "nothing is saved: no call is entered that could be left";
    case TURNIPLOOM_CHECK: return "a block of the trace is cut short, or its check is wrong";
    case TURNIPLOOM_FILLER: return "the trace has a filler before a position";
    case TURNIPLOOM_MOVE: return "the trace does not begin at 0, or takes a step that the code does not allow";
    case TURNIPLOOM_TOTAL: return "a total would pass 64 bits";
    case TURNIPLOOM_LISTED: return "a listed register is not in the file, or is listed twice";
    case TURNIPLOOM_OFFSETS: return "the offsets are not those of this code and its list";
    default: return "a refusal that this header does not know";
    }
}

/* Whether an opcode is a register form, and whether it is a jump: the Rust's `is_register` and `is_jump`. */
static inline bool turniploom_is_register(uint16_t op) {
    static const uint64_t forms[3] = {0xAA00000000000000ULL, 0xAAAAAAAAAAAAAAAAULL, 0x2AAAAAAAAAAAAAAAULL};
    return op <= 190 && (forms[op / 64] >> (op % 64) & 1) != 0;
}
static inline bool turniploom_is_jump(uint16_t op) {
    static const uint64_t jumps[3] = {0x0000000000000000ULL, 0x1000004500000000ULL, 0x5000000100000000ULL};
    return op <= 190 && (jumps[op / 64] >> (op % 64) & 1) != 0;
}

/* Sets the marks of code as the Rust's tests have them: register by the opcode, wide on one of the four calls right before an ArgsR, and
 * dunder where dunder_op, the host's own test, says so. */
static inline void turniploom_set_marks(uint16_t *code, size_t code_len, bool (*dunder_op)(uint16_t op)) {
    size_t k;
    for (k = 0; k + 6 <= code_len; k += 6) {
        uint16_t op = code[k];
        bool call = op == TURNIPLOOM_CallGlobalR || op == TURNIPLOOM_CallR || op == TURNIPLOOM_CallMethodR || op == TURNIPLOOM_CallSpreadR;
        bool wide = call && k + 12 <= code_len && code[k + 6] == TURNIPLOOM_ArgsR;
        code[k + 1] = (uint16_t)((wide ? TURNIPLOOM_WIDE : 0) | (dunder_op(op) ? TURNIPLOOM_DUNDER : 0) |
                                 (turniploom_is_register(op) ? TURNIPLOOM_IS_REGISTER : 0));
    }
}

/* Sets the marks of a chunk: jump by the opcode, and that a LoadConst names a constant. What other opcodes name is for the host to add. */
static inline void turniploom_set_chunk_marks(uint16_t *code, size_t code_len) {
    size_t k;
    for (k = 0; k + TURNIPLOOM_CHUNK_WORDS <= code_len; k += TURNIPLOOM_CHUNK_WORDS)
        code[k + 1] = turniploom_is_jump(code[k]) ? TURNIPLOOM_IS_JUMP : code[k] == TURNIPLOOM_LoadConst ? TURNIPLOOM_NAMES_CONSTANT : 0;
}

#ifdef __cplusplus
}
#endif

#endif

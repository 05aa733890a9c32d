// The exported calls: name, parameters, and what first to fourth of an answer are. A value that is not named is 0. The functions of
// `abi`, the test of the archive, the header's check, the comparison's list and the replay of recorded answers all follow from this
// table, and so does the build script, which includes it too.

calls! {
    /// The role of an instruction as bits.
    kinds(code: &[u16], at: usize) -> { first: "1 writes a; 2, 4, 8 reads a, b, c; 16 jumps to a; 32 no role" };
    /// The role of an instruction.
    role(code: &[u16], at: usize) -> {
        first: "1 if it has one, else 0", second: "1 if a is written", third: "the fields that are read, bit 0 a, 1 b, 2 c",
        fourth: "1 if a is a jump's target"
    };
    /// A field of an instruction: a for f of 0, b for 1, else c.
    field(code: &[u16], at: usize, f: u8) -> { first: "the field" };
    /// Whether an instruction writes register r.
    writes(code: &[u16], at: usize, r: u16) -> { first: "1 if so, else 0" };
    /// Whether code may be laid as a section.
    pure(code: &[u16]) -> { first: "1 if so, else 0" };
    /// Whether laid code leaves nothing of its own on the stack.
    flat(code: &[u16]) -> { first: "1 if so, else 0" };
    /// Whether code has a try or a with.
    guarded(code: &[u16]) -> { first: "1 if so, else 0" };
    /// Whether a PushRegs pushes the value that a ReturnValue returns.
    returns(code: &[u16], at: usize) -> { first: "1 if so, else 0" };
    /// The parameters, the first arity registers, that some instruction writes.
    params_written(code: &[u16], arity: usize) -> { first: "a bit for each, of the first 64" };
    /// The parameters that a call passes on as they are.
    passed(code: &[u16], at: usize, arity: usize) -> { first: "a bit for each" };
    /// Whether a generator's body may be laid as a section. seen and todo are n + 1 long, and 0 after an answer.
    gen_pure(code: &[u16], seen: &mut [u8], todo: &mut [u32]) -> { first: "1 if so, else 0" };
    /// Whether what a Phi writes to r is read on no path. seen and todo are n + 1 long, and 0 after an answer.
    dead_phi(code: &[u16], at: usize, r: u16, seen: &mut [u8], todo: &mut [u32]) -> { first: "1 if so, else 0" };
    /// For each position and the end, how many for loops it lies inside. out is n + 1 long.
    loops_around(code: &[u16], out: &mut [u32]) -> {};
    /// For each position and the end, 1 if a jump or a handler lands there, else 0. out is n + 1 long.
    targets(code: &[u16], tries: &[u32], out: &mut [u8]) -> {};
    /// The module binding that a call calls.
    global_of(code: &[u16], at: usize) -> { first: "1 if it is found, else 0", second: "the binding" };
    /// The PushRegs that pushed what a StoreTopR takes back into r past a call.
    pushed_back(code: &[u16], at: usize, r: u16) -> { first: "1 if it is found, else 0", second: "its position" };
    /// The PushRegs that pushed the function of a stack call with count positionals.
    stack_callee(code: &[u16], at: usize, count: u16) -> { first: "1 if it is found, else 0", second: "its position", third: "the register" };
    /// The registers kept at each level. rows is (n + 1) times the words of a row long, offsets n + 1. A list too short is refused with
    /// the length it needs, and the rows are then found. The list of position k begins at entry k of offsets and ends at the next.
    kept(code: &[u16], regs: usize, tries: &[u32], wide: bool, rows: &mut [u64], offsets: &mut [u32], list: &mut [u16]) -> {
        first: "the length of the list", second: "full sweeps", third: "abandoned sweeps"
    };
    /// Folds a chunk. kinds and words need max(count, min(65,535, count + folding operators)) entries, phi_map n, phi_sources two for
    /// each pair or Phi, dead n, remap and landings n + 1. The counts of pair tables are in words. tries are pairs of a start and a
    /// handler, and follow the code. In strict mode nothing folds that a jump or a handler lands in. Entry t of landings is then how
    /// many of both land on position t of what is left. Instructions keep their origins.
    fold(
        code: &mut [u16], kinds: &mut [u8], words: &mut [u64], constants: usize, phi_map: &mut [u32], phi_map_count: usize,
        phi_sources: &mut [u16], phi_sources_count: usize, stmt_pos: &mut [u32], stmt_pos_count: usize,
        call_byte_pos: &mut [u32], call_byte_pos_count: usize, dead: &mut [u8], remap: &mut [u32], tries: &mut [u32], landings: &mut [u64],
        strict: bool
    ) -> { first: "instructions", second: "constants", third: "entries of phi_map", fourth: "words of phi_sources" };
    /// Drops the constants that no instruction names; the others keep their order, what names them is renumbered, and freed entries are
    /// 0. scratch needs an entry for each constant, and then holds how many named ones stand before it.
    clear(code: &mut [u16], kinds: &mut [u8], words: &mut [u64], constants: usize, scratch: &mut [u32]) -> { first: "constants left" };
    /// kept with rows of 32 bits: rows is (n + 1) times max(1, registers / 32 rounded up) long, offsets and list are the same. With more than
    /// 32 registers the counts of sweeps and the rows before the first level may be others.
    kept32(code: &[u16], regs: usize, tries: &[u32], wide: bool, rows: &mut [u32], offsets: &mut [u32], list: &mut [u16]) -> {
        first: "the length of the list", second: "full sweeps", third: "abandoned sweeps"
    };
    /// Where the level at a position goes on once its call is over, and which register has the result.
    level(code: &[u16], at: usize) -> { first: "1 if it is a level, else 0", second: "where it resumes", third: "its result register, or 65,536 for none" };
    /// Makes a saver of regs registers, at most 64, with nothing saved. A saver is three arrays, the same for every call: head, 2 words, and
    /// area, 4,096, are its own; file, 64, is the registers, which a host writes between the calls as it likes.
    saver_make(head: &mut [u64; 2], regs: usize) -> {};
    /// Puts the listed registers aside as a call is entered: the list that kept has for its level, and the result register that level tells.
    saver_enter(head: &mut [u64; 2], area: &mut [u64; 4096], file: &[u64; 64], list: &[u16], result: u64) -> { first: "words in use" };
    /// Puts them back as the newest call returns, and writes its value to the result register, if that is in the file.
    saver_return(head: &mut [u64; 2], area: &[u64; 4096], file: &mut [u64; 64], value: u64) -> { first: "words in use" };
    /// Puts them back as the newest call is left by an exception.
    saver_exception(head: &mut [u64; 2], area: &[u64; 4096], file: &mut [u64; 64]) -> { first: "words in use" };
    /// Adds a body to a report: its code and its answer from kept, the list cut to the length that was told. A report is seven words, all 0 for
    /// no body: bodies, levels, kept registers, the longest list, 1 if there is a level, and body and position of the first list so long.
    figures_add(code: &[u16], offsets: &[u32], list: &[u16], report: &mut [u64; 7]) -> {
        first: "this body's levels", second: "its kept registers", third: "all kept registers", fourth: "all levels: the mean list length is third / fourth"
    };
    /// Joins the report of a later group of bodies to that of an earlier one, which becomes that of both.
    figures_join(later: &[u64; 7], report: &mut [u64; 7]) -> { third: "all kept registers", fourth: "all levels" };
    /// Replays a recorded day. The trace is blocks of 512 bytes: 127 visited positions of 32 bits, little-endian, 0xFFFFFFFF as filler at
    /// the end alone, and the sum of the 508 bytes, each times its place from 1. reads needs an entry for each register, and then holds how
    /// many steps used it. A trace that is no run of the code is refused, and nothing is written.
    replay(code: &[u16], regs: usize, tries: &[u32], trace: &[u8], reads: &mut [u64]) -> { first: "steps", second: "levels met" };
    /// What an instruction by itself touches: registers used and given up as the rows have them, and written as writes has them.
    touched(code: &[u16], at: usize) -> {
        first: "the fields it uses, bit 0 a, 1 b, 2 c", second: "the fields it gives up", third: "the fields it writes",
        fourth: "how many registers from b on it gives up and writes besides: 0, 2 or 5"
    };
    /// Whether register r is needed at a position: some path from there uses it before it gives it up. The end may be asked about, where none is.
    /// seen and todo are n + 1 long, and 0 after an answer.
    needed(code: &[u16], regs: usize, at: usize, r: u16, seen: &mut [u8], todo: &mut [u32]) -> { first: "1 if so, else 0" };
    /// kept where calls may raise later on: a row has whole the rows of the handlers around its position too, if the position is a level, or
    /// whatever it is if all. Buffers, routes and sweeps as of kept.
    kept_raising(code: &[u16], regs: usize, tries: &[u32], all: bool, rows: &mut [u64], offsets: &mut [u32], list: &mut [u16]) -> {
        first: "the length of the list", second: "full sweeps", third: "abandoned sweeps"
    };
    /// The registers of a list that another has not, in order, at the front of out: of one level's lists by kept_raising and by kept, those that a
    /// later exception needs and kept does not keep. out is as long as list.
    exposed(plain: &[u16], list: &[u16], out: &mut [u16]) -> { first: "how many" };
    /// The version of the calls, as the header has it: that of the archive which is linked. It is never refused.
    version() -> { first: "major", second: "minor", third: "patch" };
}

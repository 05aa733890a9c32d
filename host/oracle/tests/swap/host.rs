// A small host over `block`: what it lays as a section, and what it saves when a rule calls itself. `Ins`, `block` and the
// opcodes come from the imports of the module that includes this file; nothing here says whose they are.

/// What the host does at a call.
#[derive(Debug, PartialEq, Eq)]
pub struct Save {
    pub at: usize,
    pub binding: Option<u16>,
    pub kept: Vec<u16>,
    /// The parameters that are passed on as they are and that nothing writes: they need no saving.
    pub same: u64,
}

#[derive(Debug, PartialEq, Eq)]
pub struct Plan {
    pub laid: bool,
    pub stepped: bool,
    pub saves: Vec<Save>,
    pub landings: Vec<bool>,
    pub depths: Vec<usize>,
    pub jumps: usize,
}

pub fn plan(body: &[Ins], regs: usize, tries: &[(usize, usize)], arity: usize) -> Plan {
    let kept = block::live_across(body, regs, tries);
    let own = block::params_written(body, arity);
    let four = |i: &Ins| [CallGlobalR, CallR, CallMethodR, CallSpreadR].contains(&i.op);
    let save = |at: usize| Save {
        at,
        binding: block::global_of(body, at, body[at]),
        kept: kept[at].clone(),
        same: block::passed(body, at, arity) & !own,
    };
    Plan {
        laid: block::pure(body) && block::flat(body) && !block::guarded(body),
        stepped: block::gen_pure(body),
        saves: (0..body.len()).filter(|&k| four(&body[k])).map(save).collect(),
        landings: block::targets(body, tries),
        depths: block::loops_around(body),
        jumps: body.iter().filter(|i| block::role(i).is_some_and(|(_, _, jumps)| jumps)).count(),
    }
}

/// The registers that are written nowhere and read somewhere.
pub fn unset(body: &[Ins], regs: u16) -> Vec<u16> {
    let reads = |i: &Ins, r: u16| block::role(i).is_some_and(|(_, fields, _)| fields.iter().any(|&f| block::field(i, f) == r));
    (0..regs).filter(|&r| body.iter().any(|i| reads(i, r)) && !body.iter().any(|i| block::writes(i, r))).collect()
}

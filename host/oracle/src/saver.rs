//! The frame saver: questions out of a history of calls, and long histories played at once on the port, on the model's words and on a plain
//! stack of what was put aside.

use crate::{model::{code::{Checked, No}, saver}, question::*, rng::Rng};
use std::{fmt, thread};
use turniploom::abi::{self, Answer};

type Enter = fn(&mut [u64; 2], &mut [u64; 4096], &[u64; 64], &[u16], u64) -> Answer;

/// The four calls.
#[derive(Clone, Copy)]
pub struct Calls {
    pub make: fn(&mut [u64; 2], usize) -> Answer,
    pub enter: Enter,
    pub leave_by_return: fn(&mut [u64; 2], &[u64; 4096], &mut [u64; 64], u64) -> Answer,
    pub leave_by_exception: fn(&mut [u64; 2], &[u64; 4096], &mut [u64; 64]) -> Answer,
}

pub const PORT: Calls =
    Calls { make: abi::saver_make, enter: abi::saver_enter, leave_by_return: abi::saver_return, leave_by_exception: abi::saver_exception };

/// What happens to a saver.
#[derive(Clone, Debug, PartialEq, Eq)]
enum Event {
    Make(u64),
    /// A list and a result register.
    Enter(Vec<u16>, u64),
    Return(u64),
    Exception,
    /// The host writes registers from one on.
    Write(usize, Vec<u64>),
}

/// A saver's words.
#[derive(Clone, PartialEq, Eq)]
struct Words {
    head: [u64; 2],
    area: Box<[u64; 4096]>,
    file: [u64; 64],
}

impl Words {
    fn port(&mut self, calls: &Calls, e: &Event) -> Answer {
        let Words { head, area, file } = self;
        match e {
            Event::Make(regs) => (calls.make)(head, *regs as usize),
            Event::Enter(list, result) => (calls.enter)(head, area, file, list, *result),
            Event::Return(value) => (calls.leave_by_return)(head, area, file, *value),
            Event::Exception => (calls.leave_by_exception)(head, area, file),
            Event::Write(from, words) => { file[*from..][..words.len()].copy_from_slice(words); Answer::default() }
        }
    }

    fn model(&mut self, e: &Event) -> Answer {
        let Words { head, area, file } = self;
        told(match e {
            Event::Make(regs) => saver::make(head, *regs),
            Event::Enter(list, result) => saver::enter(head, &mut area[..], file, list, *result),
            Event::Return(value) => saver::leave(head, &area[..], file, Some(*value)),
            Event::Exception => saver::leave(head, &area[..], file, None),
            Event::Write(from, words) => { file[*from..][..words.len()].copy_from_slice(words); Ok(0) }
        })
    }
}

fn told(answer: Checked<u64>) -> Answer {
    match answer {
        Ok(first) => Answer { first, ..Answer::default() },
        Err(No(refusal, first, second)) => Answer { refusal, first, second, ..Answer::default() },
    }
}

/// What is promised, said without any word of the area: the registers, and for each open call what it put aside.
#[derive(Clone)]
struct Plain {
    regs: u64,
    file: Vec<u64>,
    open: Vec<(Vec<(u16, u64)>, u64)>,
}

impl Plain {
    fn used(&self) -> u64 { self.open.iter().map(|(kept, _)| 2 * kept.len() as u64 + 2).sum() }

    fn does(&mut self, e: &Event) -> Answer {
        told(match e {
            Event::Make(regs) if *regs > 64 => Err(No(3, *regs, 0)),
            Event::Make(regs) => { (self.regs, self.open) = (*regs, vec![]); Ok(0) }
            Event::Enter(list, result) => self.entered(list, *result),
            Event::Return(value) => self.left(Some(*value)),
            Event::Exception => self.left(None),
            Event::Write(from, words) => { self.file[*from..][..words.len()].copy_from_slice(words); Ok(0) }
        })
    }

    fn entered(&mut self, list: &[u16], result: u64) -> Checked<u64> {
        for (i, r) in list.iter().enumerate() { if u64::from(*r) >= self.regs || list[..i].contains(r) { return Err(No(14, i as u64, 0)) } }
        let free = saver::AREA - self.used();
        if free < 2 * list.len() as u64 + 2 { return Err(No(8, free, 0)) }
        self.open.push((list.iter().map(|&r| (r, self.file[r as usize])).collect(), result));
        Ok(self.used())
    }

    fn left(&mut self, value: Option<u64>) -> Checked<u64> {
        let (kept, result) = self.open.pop().ok_or(No(9, 0, 0))?;
        for (r, held) in kept { self.file[r as usize] = held }
        if let Some(v) = value && result < self.regs { self.file[result as usize] = v }
        Ok(self.used())
    }
}

/// The next event of a history: calls go deeper for a while, then come back.
struct Events {
    rng: Rng,
    deeper: bool,
    /// Lists of at most so many registers.
    most: usize,
}

impl Events {
    fn new(mut rng: Rng, most: usize) -> Events { Events { deeper: !rng.once_in(4), rng, most } }

    fn next(&mut self, regs: u64) -> Event {
        if self.rng.once_in(150) { self.deeper = !self.deeper }
        let (enter, leave) = if self.deeper { (14, 5) } else { (5, 14) };
        match self.rng.below(28_000) {
            0..20 if self.rng.once_in(3) => Event::Make(self.rng.pick(&[65, 66, 1_024, 1 << 32, u64::MAX])),
            0..20 => Event::Make(self.rng.pick(&[64, 64, 64, 63, 8, 3, 1, 0])),
            w if w % 28 < enter => self.entry(regs),
            w if w % 28 < enter + leave => if self.rng.once_in(2) { Event::Return(self.rng.word()) } else { Event::Exception },
            _ => {
                let from = self.rng.below(64);
                let words = (0..1 + self.rng.below(64 - from).min(self.rng.pick(&[0, 3, 63]))).map(|_| self.rng.word()).collect();
                Event::Write(from, words)
            }
        }
    }

    /// A list of registers that are there, in any order; now and then one that is not, or twice.
    fn entry(&mut self, regs: u64) -> Event {
        let mut all: Vec<u16> = (0..regs as u16).collect();
        let length = if self.rng.once_in(12) { all.len() } else { self.rng.below(all.len().min(8) + 1) }.min(self.most);
        for i in 0..length { let j = i + self.rng.below(all.len() - i); all.swap(i, j) }
        all.truncate(length);
        if self.rng.once_in(14) {
            let at = self.rng.below(all.len() + 1);
            let strange = if all.is_empty() || self.rng.once_in(2) { self.rng.pick(&[regs as u16, regs as u16 + 1, 64, 65_535]) } else { self.rng.pick(&all) };
            all.insert(at, strange);
        }
        let inside = self.rng.below(regs.max(1) as usize) as u64;
        let result = self.rng.weighted(&[(3, 65_536), (8, inside), (1, regs), (1, 64), (1, u64::MAX)]);
        Event::Enter(all, result)
    }
}

/// What the events of some histories came to.
#[derive(Clone, Debug, Default, PartialEq, Eq)]
pub struct Played {
    pub events: u64,
    pub made: u64,
    pub entered: u64,
    pub returned: u64,
    pub thrown: u64,
    /// Refused with 3, 8, 9 and 14.
    pub refused: [u64; 4],
    /// The most calls open at once.
    pub deepest: usize,
    pub wrong: u64,
    /// The first that was wrong.
    pub shown: Option<String>,
}

/// The refusals that are counted.
const REFUSALS: [u8; 4] = [3, 8, 9, 14];

impl Played {
    fn count(&mut self, e: &Event, answer: &Answer, open: usize) {
        self.events += 1;
        self.deepest = self.deepest.max(open);
        if let Some(k) = REFUSALS.iter().position(|&r| r == answer.refusal) { return self.refused[k] += 1 }
        match e {
            Event::Make(_) => self.made += 1,
            Event::Enter(..) => self.entered += 1,
            Event::Return(_) => self.returned += 1,
            Event::Exception => self.thrown += 1,
            Event::Write(..) => {}
        }
    }

    fn add(&mut self, other: Played) {
        self.events += other.events;
        self.made += other.made;
        self.entered += other.entered;
        self.returned += other.returned;
        self.thrown += other.thrown;
        for (mine, theirs) in self.refused.iter_mut().zip(other.refused) { *mine += theirs }
        self.deepest = self.deepest.max(other.deepest);
        self.wrong += other.wrong;
        if self.shown.is_none() { self.shown = other.shown }
    }

    /// Nothing was wrong, and everything that can happen to a saver did.
    pub fn well(&self) -> bool {
        self.wrong == 0 && [self.made, self.entered, self.returned, self.thrown].into_iter().chain(self.refused).all(|k| k > 0) && self.deepest > 100
    }
}

impl fmt::Display for Played {
    fn fmt(&self, f: &mut fmt::Formatter<'_>) -> fmt::Result {
        let [three, eight, nine, fourteen] = self.refused;
        if let Some(shown) = &self.shown { writeln!(f, "{shown}")? }
        let verdict = if self.well() { "" } else if self.wrong > 0 { "WRONG: " } else { "NOT ENOUGH WAS PLAYED: " };
        write!(
            f, "{verdict}{} events of a saver, {} wrong: {} made, {} entered, {} returned, {} left by an exception, up to {} open at once; \
            refused {three} with 3, {eight} with 8, {nine} with 9, {fourteen} with 14.",
            self.events, self.wrong, self.made, self.entered, self.returned, self.thrown, self.deepest
        )
    }
}

/// Plays so many random events, on so many threads, each with a saver of its own.
pub fn play(calls: Calls, seed: u64, events: u64, threads: usize) -> Played {
    let threads = threads.max(1) as u64;
    let share = |t: u64| events / threads + u64::from(t < events % threads);
    let mut all = Played::default();
    thread::scope(|s| {
        let played: Vec<_> = (0..threads).map(|t| s.spawn(move || history(&calls, Rng::new(seed, t), share(t)))).collect();
        for one in played { all.add(one.join().expect("a history")) }
    });
    all
}

/// One history: the port's answer and words must be the model's after every event, and the answer, registers and words in use those of the stack.
fn history(calls: &Calls, mut rng: Rng, events: u64) -> Played {
    let junk = |rng: &mut Rng| rng.word();
    let mut port = Words { head: [64, 0], area: vec![0; 4096].try_into().expect("4,096 words"), file: std::array::from_fn(|_| junk(&mut rng)) };
    port.area.fill_with(|| junk(&mut rng));
    let (mut model, mut plain) = (port.clone(), Plain { regs: 64, file: port.file.to_vec(), open: vec![] });
    let (mut source, mut played) = (Events::new(rng, 64), Played::default());
    for k in 0..events {
        let e = source.next(plain.regs);
        let (told, modelled, promised) = (port.port(calls, &e), model.model(&e), plain.does(&e));
        played.count(&e, &promised, plain.open.len());
        let words = port == model && port.file[..] == plain.file[..] && port.head == [plain.regs, plain.used()];
        if told == modelled && told == promised && words { continue }
        played.wrong += 1;
        if played.shown.is_none() {
            let (differ, open) = (if words { "" } else { ", and the words differ" }, plain.open.len());
            played.shown = Some(format!("event {k}, {open} open: {e:?}\n  the port {told:?}\n  the model {modelled:?}\n  promised {promised:?}{differ}"));
        }
        // Go on from what is right.
        port = model.clone();
    }
    played
}

/// A question about a saver that a history left; now and then one that no history leaves.
pub fn random(rng: &mut Rng, call: Call) -> Question {
    let mut words = Words { head: [0, 0], area: vec![0; 4096].try_into().expect("4,096 words"), file: [0; 64] };
    words.head[0] = rng.pick(&[64, 8, 8, 4, 3, 1, 0]);
    let registers = rng.pick(&[4, 12, 64]);
    for r in 0..registers { words.file[r] = rng.word() >> 56 }
    let mut events = Events::new(Rng::new(rng.word(), 0), rng.pick(&[2, 4, 64]));
    let open = if rng.once_in(3) { rng.below(400) } else { rng.below(6) };
    for _ in 0..open {
        let e = events.next(words.head[0]);
        if !matches!(e, Event::Make(_)) { words.model(&e); }
    }
    if !rng.once_in(4) { for r in 0..registers { words.file[r] = rng.word() >> 56 } }
    // So much room is left that a list may just fit, or just not.
    if rng.once_in(6) { words.head[1] = saver::AREA - rng.below(20) as u64 }
    if rng.once_in(30) { words.head[rng.below(2)] = rng.pick(&[65, 4_095, 4_096, 4_097, u64::MAX, u64::MAX / 2]) }
    if rng.once_in(30) && (2..=4_096).contains(&words.head[1]) {
        words.area[words.head[1] as usize - 2] = rng.pick(&[0, 1, 2_046, 2_047, 2_048, u64::MAX, u64::MAX / 2 + 1]);
    }
    let Event::Enter(list, result) = events.entry(words.head[0].min(64)) else { unreachable!("an entry") };
    let regs = if rng.once_in(4) { rng.pick(&[65, 1_024, u64::MAX]) } else { rng.below(65) as u64 };
    asked(call, &words, list, result, rng.word() >> 56, regs)
}

fn asked(call: Call, words: &Words, list: Vec<u16>, result: u64, value: u64, regs: u64) -> Question {
    let args = call.params().iter().map(|p| match p.name {
        "head" => Arg::U64(words.head.to_vec()),
        "area" => Arg::U64(words.area.to_vec()),
        "file" => Arg::U64(words.file.to_vec()),
        "list" => Arg::U16(list.clone()),
        "result" => Arg::N(result),
        "value" => Arg::N(value),
        "regs" => Arg::N(regs),
        other => panic!("no {other}"),
    });
    Question { call, args: args.collect() }
}

/// Every number of registers, every room around what a list needs, every short area with small words, and words that are too large.
pub fn systematic(rng: &mut Rng, call: Call, take: &mut dyn FnMut(Question)) {
    let mut words = Words { head: [4, 0], area: vec![0; 4096].try_into().expect("4,096 words"), file: std::array::from_fn(|_| rng.word()) };
    for regs in (0..70).chain([1_024, 1 << 32, u64::MAX]) {
        words.head = [regs, 0];
        take(asked(call, &words, (0..regs.min(70) as u16).collect(), 0, 7, regs));
    }
    for length in [0, 1, 2, 63, 64] {
        for free in (2 * length + 2_u64).saturating_sub(2)..2 * length + 5 {
            words.head = [64, saver::AREA - free];
            take(asked(call, &words, (0..length as u16).rev().collect(), 65_536, 7, 64));
        }
    }
    for used in (0..9).chain([4_095, 4_096, 4_097, u64::MAX]) {
        for length in [0, 1, 2, 3, 4, 2_046, 2_047, 2_048, 1 << 32, 1 << 63, u64::MAX] {
            for regs in [0, 1, 3, 64] {
                words.head = [regs, used];
                words.area.fill_with(|| rng.below(5) as u64);
                if (2..=4_096).contains(&used) { words.area[used as usize - 2] = length }
                take(asked(call, &words, vec![0], 1, 9, regs));
            }
        }
    }
}

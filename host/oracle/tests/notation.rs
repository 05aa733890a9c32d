//! What the comparison prints in the listing's notation is read back as it was.

use listing::notation::{Text, asked, read};
use oracle::{question::*, questions, rng::Rng};

#[test]
fn written_and_read_back() {
    let mut rng = Rng::new(11, 0);
    for k in 0..20_000 {
        let q = questions::random(&mut rng, [Kept, Kept32, Kinds, Targets, Fold, Clear][k % 6]);
        let text = asked(&q);
        match read(&text).unwrap_or_else(|e| panic!("{e}\n{text}")) {
            Text::Body(b) => {
                assert_eq!(b.words(), q.u16("code"), "{text}");
                assert_eq!(b.rows32, q.call == Kept32, "{text}");
                if q.call.keeps() { assert_eq!((b.registers as u64, &b.tries[..], u64::from(b.wide)), (q.n("regs"), q.u32("tries"), q.n("wide")), "{text}") }
            }
            Text::Chunk(c) => {
                assert_eq!(c.words(), q.u16("code"), "{text}");
                let kinds: Vec<u64> = c.constants.iter().map(|c| c.0.into()).collect();
                let words: Vec<u64> = c.constants.iter().map(|c| c.1).collect();
                assert!(q.arg("kinds").numbers()[1..].starts_with(&kinds) && q.arg("words").numbers()[1..].starts_with(&words), "{text}");
                if q.call == Fold { assert_eq!((u64::from(c.strict), &c.tries[..]), (q.n("strict"), q.u32("tries")), "{text}") }
            }
        }
    }
}

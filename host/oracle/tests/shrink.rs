//! A failing question is made as small as it goes.

use listing::notation::asked;
use oracle::{question::*, questions, rng::Rng, shrink::shrink};
use turniploom::{Op, abi::CHUNK_WORDS, op};

/// A made-up fault: some JumpIfFalseR tests a register past 2, and there is room for a list.
fn fails(q: &Question) -> bool {
    q.u16("code").chunks(6).any(|w| w.len() == 6 && Op(w[0]) == op::JumpIfFalseR && w[3] > 2) && q.arg("list").numbers()[0] > 1
}

#[test]
fn to_one_instruction_and_small_numbers() {
    let mut rng = Rng::new(3, 0);
    let mut found = 0;
    while found < 20 {
        let q = questions::random(&mut rng, Kept);
        if !fails(&q) { continue }
        found += 1;
        let small = shrink(&q, &fails);
        assert!(fails(&small));
        assert_eq!(asked(&small), "registers 0\n0 JumpIfFalseR a0 b3\n");
        assert_eq!((small.arg("list").numbers(), small.arg("rows").numbers()), (vec![2, 0, 0], vec![0]));
    }
}

#[test]
fn a_chunk_with_its_phi_map() {
    let full = |q: &Question| q.n("phi_map_count") == q.u16("code").len() as u64 / CHUNK_WORDS as u64 && q.u32("phi_map").len() as u64 >= q.n("phi_map_count");
    let fails = |q: &Question| q.u16("code").chunks(CHUNK_WORDS).any(|w| Op(w[0]) == op::Phi) && full(q);
    let mut rng = Rng::new(4, 0);
    let q = std::iter::repeat_with(|| questions::random(&mut rng, Fold)).find(|q| fails(q)).unwrap();
    assert_eq!(asked(&shrink(&q, &fails)), "chunk\nphi_map 0\n0 Phi 0\n");
}

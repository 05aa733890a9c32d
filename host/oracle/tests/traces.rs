//! The random traces: each refusal of a trace comes about, and so do long runs, handlers and several blocks.

use oracle::{model, port, question::Replay, questions, rng::Rng};
use std::collections::BTreeMap;

#[test]
fn every_refusal_of_a_trace_comes_about() {
    let (mut rng, mut told, mut longest, mut levels) = (Rng::new(3, 1), BTreeMap::new(), 0, 0);
    for _ in 0..3_000 {
        let q = questions::random(&mut rng, Replay);
        let reply = model::ask(&q);
        assert_eq!(port::ask(&q), reply);
        *told.entry(reply.answer.refusal).or_insert(0) += 1;
        if reply.answer.refusal == 0 { (longest, levels) = (longest.max(reply.answer.first), levels + reply.answer.second) }
    }
    for refusal in [0, 1, 2, 3, 4, 5, 10, 11, 12] { assert!(told.get(&refusal).is_some_and(|&k| k > 5), "{refusal}: {told:?}") }
    assert!(longest > 254 && levels > 1_000, "{longest} {levels}");
}

/// A port that is wrong in one word of the reads, or that takes any trace, is caught.
#[test]
fn a_wrong_replay_is_caught() {
    use oracle::{compare::{Comparison, Until}, question::{Question, Reply}};
    fn reads_one_more(q: &Question) -> Reply {
        let mut reply = port::ask(q);
        if reply.answer.refusal == 0 && reply.answer.first > 0 && let Some(first) = reply.lent.u64("reads").first_mut() { *first += 1 }
        reply
    }
    fn takes_any(q: &Question) -> Reply {
        let mut reply = port::ask(q);
        if reply.answer.refusal >= 10 { reply.answer = Default::default() }
        reply
    }
    for wrong in [reads_one_more as fn(&Question) -> Reply, takes_any] {
        let comparison = Comparison::of(Some(wrong), model::ask, &[Replay]);
        comparison.run(1, Until::Rounds(1), 1);
        assert!(!comparison.report().well);
    }
}

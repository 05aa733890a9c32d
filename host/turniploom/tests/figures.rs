//! Figures: adding and joining tell the same, and what is not a body's own answer is refused in words.

use turniploom::{Figures, Ins, Kept, Longest, Lowered, Refusal, kept, kept32, marked, op::*};

/// A body with so many registers that its call keeps, after so many instructions; none has no level.
fn body(kept_registers: Option<u16>, before: usize) -> Vec<Ins> {
    let mut body = vec![Lowered::new(Move, 60, 61, 0, 0); before];
    if let Some(registers) = kept_registers {
        body.extend([Lowered::new(CallR, 63, 0, 0, 0), Lowered::new(StoreTopR, 62, 0, 0, 0)]);
        body.extend((0..registers).map(|r| Lowered::new(AddR, 62, r, 62, 0)));
    }
    body.push(Lowered::new(ReturnR, 0, 62, 0, 0));
    marked(&body, |_| false)
}

fn found(code: &Vec<Ins>) -> Kept { kept(code, 64, &[], false).unwrap() }

fn of(code: &Vec<Ins>) -> Figures { Figures::of(code, &found(code)).unwrap() }

#[test]
fn added_joined_and_collected_are_the_same() {
    let month = [body(None, 1), body(Some(0), 0), body(Some(3), 2), body(Some(3), 0), body(Some(2), 4), body(None, 0)];
    let mut added = Figures::default();
    for code in &month {
        let own = of(code);
        assert_eq!(added.add(code, &found(code)), Ok((own.levels(), own.kept())));
    }
    assert_eq!(added.words(), [6, 4, 8, 3, 1, 2, 2]);
    assert_eq!(added.longest(), Some(Longest { length: 3, body: 2, position: 2 }));
    assert_eq!((added.bodies(), added.levels(), added.kept(), added.mean(), added.area(100)), (6, 4, 8, (8, 4), Some(800)));
    for cut in 0..=month.len() {
        let [mut earlier, later] = [&month[..cut], &month[cut..]].map(|part| part.iter().map(of).collect::<Figures>());
        earlier.join(&later).unwrap();
        assert_eq!(earlier, added, "cut at {cut}");
        assert_eq!(Figures::stored(later.words()), later);
    }
    // Rows of the other width have the same lists.
    let code = &month[2];
    assert_eq!(Figures::of(code, &kept32(code, 64, &[], false).unwrap()), Ok(of(code)));
}

#[test]
fn no_level_has_no_longest_list() {
    let none: Figures = [of(&body(None, 3))].into_iter().collect();
    assert_eq!((none.bodies(), none.longest(), none.mean(), none.area(9), Figures::default().area(9)), (1, None, (0, 0), Some(0), Some(0)));
    assert_eq!(of(&body(Some(0), 1)).longest(), Some(Longest { length: 0, body: 0, position: 1 }));
}

#[test]
fn refusals_in_words() {
    let (code, other) = (body(Some(2), 1), body(Some(2), 0));
    let mut figures = of(&code);
    let before = figures;
    let strange = figures.add(&other, &found(&code)).unwrap_err();
    assert_eq!((strange, strange.number(), figures), (Refusal::Offsets { place: 1 }, 15, before));
    assert_eq!(strange.to_string(), "at 1 the offsets fall, do not run from 0 to the list's length, or give a list to what is no level");
    let short = figures.add(&code, &found(&other)).unwrap_err();
    assert_eq!((short, figures), (Refusal::Buffer { buffer: 1, needed: code.len() as u64 + 1 }, before));
    for (place, word) in ["bodies", "levels", "kept registers"].into_iter().enumerate() {
        let mut words = [1, 1, 1, 1, 1, 0, 0];
        words[place] = u64::MAX;
        let over = figures.join(&Figures::stored(words)).unwrap_err();
        assert_eq!((over, over.number(), figures), (Refusal::Total { total: place as u64 + 1 }, 13, before));
        assert_eq!(over.to_string(), format!("the number of {word} would pass 64 bits"));
    }
    assert_eq!(figures.join(&Figures::stored([1, 1, 1, 1, 1, u64::MAX, 0])), Err(Refusal::Total { total: 4 }));
    assert_eq!(Figures::stored([1, 1, 1, u64::MAX / 2, 1, 0, 0]).area(1), None);
}

#[test]
#[should_panic(expected = "the number of bodies would pass 64 bits")]
fn too_many_to_collect() { let _: Figures = [Figures::stored([u64::MAX, 0, 0, 0, 0, 0, 0]), of(&body(None, 0))].into_iter().collect(); }

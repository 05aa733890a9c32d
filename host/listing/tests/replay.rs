//! A recorded day beside the rows.

use listing::{body::View, notation::{Text, read}, page, refused, text};
use turniploom::{Block, Refusal};

/// r0 is needed by every row up to 3, and the run that is recorded goes round it.
const BODY: &str = "registers 3; 0 LoadGlobalR a1 b9; 1 JumpIfFalseR a4 b1; 2 Move a2 b0; 3 ReturnR b2; 4 ReturnR b1";

fn replayed(positions: &[u32]) -> Result<(String, String), String> {
    let Text::Body(b) = read(BODY).unwrap() else { panic!("a chunk") };
    let mut view = View::of(&b).unwrap();
    view.replay(&b, &Block::of(positions).bytes()).map_err(|r: Refusal| refused::body(r, &b))?;
    Ok((text::body(&view), page::body(&view)))
}

#[test]
fn a_register_that_is_needed_and_never_read() {
    let (text, page) = replayed(&[0, 1, 4]).unwrap();
    assert!(text.contains("visited once") && text.contains("2 Move a2 b0          r0    r2        ○··  never visited"), "{text}");
    assert!(text.contains("\nReplayed: 3 steps, 1 level met. Read: r1 2.\nNeeded by a row and never read on that day: r0 and r2.\n"), "{text}");
    assert!(text.contains("○ needed and never read on that day"), "{text}");
    assert!(page.contains("never read on that day") && page.contains("<td class=\"cell row unread\"") && page.contains(">○u</td>"), "{page}");
}

#[test]
fn all_that_is_needed_is_read() {
    let (text, page) = replayed(&[0, 1, 2, 3]).unwrap();
    assert!(!text.contains('○') && text.contains("\nReplayed: 4 steps, 1 level met. Read: r0 1, r1 1, r2 1.\n"), "{text}");
    assert!(!page.contains("unread"));
}

#[test]
fn a_trace_that_is_refused() {
    assert_eq!(replayed(&[0, 2]).unwrap_err(), "refused (12): step 1 of the trace is none that the code allows");
    assert_eq!(replayed(&[0, u32::MAX, 1]).unwrap_err(), "refused (11): block 0 of the trace has a position after a filler");
}

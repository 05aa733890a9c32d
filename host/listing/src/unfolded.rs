//! Why an operator over constants was not folded: the rules of document 01, one sentence each, by the listing's own reckoning. Landings alone are
//! counted by the archive.

use crate::notation::constant_text;
use turniploom::{Op, op};

/// The ints that a value can hold: 48 bits.
const INTS: std::ops::RangeInclusive<i128> = -(1 << 47)..=(1 << 47) - 1;

/// A constant by what folds can do with it.
#[derive(Clone, Copy)]
enum Number {
    Int(i128),
    Float(f64),
}

/// Why a constant can be no operand at all, or its number. A bool has a number under `not` alone.
fn operand(o: Op, index: u16, constants: &[(u8, u64)]) -> Result<Option<Number>, String> {
    let Some(&(kind, word)) = constants.get(usize::from(index)) else { return Err(format!("constant {index} is not there")) };
    let shown = constant_text(kind, word);
    match kind {
        1 if !INTS.contains(&i128::from(word as i64)) => Err(format!("constant {index}, {shown}, is past 48 bits")),
        1 => Ok(Some(Number::Int((word as i64).into()))),
        2 => Ok(Some(Number::Float(f64::from_bits(word)))),
        3 if o == op::Not => Ok(None),
        3 => Err(format!("constant {index}, {shown}, is no number")),
        _ => Err(format!("constant {index} is neither a number nor a bool")),
    }
}

/// Why the operator has no result over these constants, if it has none.
pub fn resultless(o: Op, operands: &[u16], constants: &[(u8, u64)]) -> Option<String> {
    let mut numbers = vec![];
    for &index in operands {
        match operand(o, index, constants) {
            Ok(number) => numbers.push(number),
            Err(why) => return Some(why),
        }
    }
    match numbers[..] {
        [Some(Number::Int(i))] if o == op::Minus => past(-i),
        [Some(Number::Int(i)), Some(Number::Int(j))] => of_ints(o, i, j),
        [Some(a), Some(b)] => of_floats(o, a, b),
        _ => None,
    }
}

fn past(value: i128) -> Option<String> { (!INTS.contains(&value)).then(|| format!("{value} is past 48 bits")) }

fn of_ints(o: Op, i: i128, j: i128) -> Option<String> {
    let shift = (0..=62).contains(&j);
    match o {
        op::Div => Some("int / int stays".into()),
        op::FloorDiv | op::Mod if j == 0 => Some("it divides by 0".into()),
        op::Shl | op::Shr if !shift => Some(format!("it shifts by {j}, which is not 0 to 62")),
        op::Add => past(i + j),
        op::Sub => past(i - j),
        op::Mul => past(i * j),
        op::Shl => past(i << j),
        op::FloorDiv => past(i.div_euclid(j) - i128::from(j < 0 && i.rem_euclid(j) != 0)),
        _ => None,
    }
}

fn of_floats(o: Op, _: Number, b: Number) -> Option<String> {
    let zero = match b {
        Number::Int(j) => j == 0,
        Number::Float(f) => f == 0.0,
    };
    match o {
        op::Div if zero => Some("it divides by 0".into()),
        op::FloorDiv | op::Mod => Some("// and % stay where one is a float".into()),
        op::BitAnd | op::BitOr | op::BitXor | op::Shl | op::Shr => Some("bits and shifts are for ints alone".into()),
        _ => None,
    }
}

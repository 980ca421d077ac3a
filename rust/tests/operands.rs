//! Typed operands against plain arithmetic, at the ends of each type and on many numbers by chance.
mod common;

use common::Chance;
use gleanrime::{Operands, Refusal};

const TOO_LARGE: Refusal = Refusal::ValueOverflow { place: None };

/// What the signed number is, by 01's sentence.
fn signed(v: u64) -> i64 {
    match v {
        1 => i64::MIN,
        _ if v % 2 == 0 => (v / 2) as i64,
        _ => -(((v - 1) / 2) as i64),
    }
}

fn check(v: u64, next: u64) {
    let numbers = [v, next];
    let take = || Operands::new(&numbers);
    assert_eq!(take().u8(), u8::try_from(v).map_err(|_| TOO_LARGE));
    assert_eq!(take().u16(), u16::try_from(v).map_err(|_| TOO_LARGE));
    assert_eq!(take().u32(), u32::try_from(v).map_err(|_| TOO_LARGE));
    assert_eq!(take().u64(), Ok(v));
    assert_eq!(take().bool(), if v < 2 { Ok(v == 1) } else { Err(TOO_LARGE) });
    assert_eq!(take().i64(), Ok(signed(v)));
    assert_eq!(take().range(), v.checked_add(next).map(|end| v..end).ok_or(TOO_LARGE));

    // An operand is taken when it is given, and stays when it is refused.
    let mut operands = take();
    let given = operands.u8().is_ok();
    assert_eq!(operands.rest(), &numbers[usize::from(given)..]);
    let mut operands = take();
    let given = operands.range().is_ok();
    assert_eq!(operands.rest(), if given { &[][..] } else { &numbers });

    // One left is too few for a range, whatever it is.
    let mut one = Operands::new(&numbers[..1]);
    assert_eq!(one.range(), Err(Refusal::EndOfRecord));
    assert_eq!(one.u64(), Ok(v));
}

#[test]
fn typed_operands_are_plain_arithmetic() {
    let edges: Vec<u64> = (0..64).flat_map(|bit| [(1 << bit) - 1, 1 << bit, (1 << bit) + 1]).chain([u64::MAX - 1, u64::MAX]).collect();
    edges.iter().for_each(|&v| edges.iter().for_each(|&next| check(v, next)));
    let mut chance = Chance::new(6);
    (0..200_000).for_each(|_| check(chance.any(), chance.any()));
}

#[test]
fn none_is_left() {
    let mut none = Operands::new(&[]);
    assert_eq!(none.u8(), Err(Refusal::EndOfRecord));
    assert_eq!(none.u16(), Err(Refusal::EndOfRecord));
    assert_eq!(none.u32(), Err(Refusal::EndOfRecord));
    assert_eq!(none.u64(), Err(Refusal::EndOfRecord));
    assert_eq!(none.bool(), Err(Refusal::EndOfRecord));
    assert_eq!(none.i64(), Err(Refusal::EndOfRecord));
    assert_eq!(none.range(), Err(Refusal::EndOfRecord));
    assert!(none.is_empty());
    assert_eq!((none.next(), none.len()), (None, 0));
}

#[test]
fn operands_are_an_iterator() {
    let mut operands = Operands::new(&[3, 1, 4, 1, 5]);
    assert_eq!((operands.len(), operands.u8()), (5, Ok(3)));
    assert_eq!(operands.by_ref().take(2).collect::<Vec<_>>(), [1, 4]);
    assert_eq!(operands.collect::<Vec<_>>(), [1, 5]);
}

//! Part j: the comparison of two keys, and the pairs of bytes that it tells:
//! all lengths to one above the limit, unlike at every place, with common
//! beginnings and endings.

use reference::fields::KEY_LIMIT;
use reference::same_key;

use crate::chance::Chance;
use crate::difference::{same, Outcome};
use crate::lent::{Lent, Words};
use crate::subject::{ComparesKeys, GOOD, KEYS_WORDS, UNTOLD};
use crate::trial::Trial;

const LONGEST: usize = KEY_LIMIT + 1;

pub fn round<S: ComparesKeys>(trial: &mut Trial<S>) -> Outcome {
    lengths(trial)?;
    places(trial)?;
    parts_of_one_row(trial)?;
    for _ in 0..200 {
        let (one, other) = any(&mut trial.chance);
        check(trial, &one, &other)?;
    }
    Ok(())
}

/// Every length beside every other: common beginnings, common endings, and
/// nothing in common.
fn lengths<S: ComparesKeys>(trial: &mut Trial<S>) -> Outcome {
    let common = trial.chance.bytes(LONGEST);
    for one in 0..=LONGEST {
        for other in 0..=LONGEST {
            check(trial, &common[..one], &common[..other])?;
            check(trial, &common[LONGEST - one..], &common[LONGEST - other..])?;
            let unlike = trial.chance.bytes(other);
            check(trial, &common[..one], &unlike)?;
        }
    }
    Ok(())
}

/// Equal keys of every length, and unlike ones: at one place alone, from the
/// beginning to it, and from it to the end.
fn places<S: ComparesKeys>(trial: &mut Trial<S>) -> Outcome {
    for length in 0..=LONGEST {
        let key = trial.chance.bytes(length);
        check(trial, &key, &key.clone())?;
        for place in 0..length {
            for span in [place..place + 1, 0..place + 1, place..length] {
                let mut other = key.clone();
                for byte in &mut other[span] {
                    *byte ^= 1 << trial.chance.below(8);
                }
                check(trial, &key, &other)?;
                check(trial, &other, &key)?;
            }
        }
    }
    Ok(())
}

/// Both keys are parts of one row of bytes, which may overlap.
fn parts_of_one_row<S: ComparesKeys>(trial: &mut Trial<S>) -> Outcome {
    let mut row = vec![trial.chance.byte(); 2 * LONGEST];
    if trial.chance.one_in(2) {
        trial.chance.fill(&mut row[..LONGEST]);
    }
    for start in 0..LONGEST {
        let length = trial.chance.up_to(LONGEST);
        let (one, other) = (&row[..length], &row[start..start + length]);
        compared(trial, one, other)?;
    }
    Ok(())
}

/// Keys of any length, mostly of the same one, that agree in most bytes.
fn any(chance: &mut Chance) -> (Vec<u8>, Vec<u8>) {
    let length = match chance.below(8) {
        0 => chance.pick(&[66, 127, 128, 255, 256, 257, 1000, 70_000]),
        _ => chance.up_to(LONGEST),
    };
    let one = chance.bytes(length);
    let mut other = one.clone();
    for _ in 0..chance.below(3) {
        if !other.is_empty() {
            let at = chance.below(other.len());
            other[at] = chance.byte();
        }
    }
    match chance.below(12) {
        0 => other.push(chance.byte()),
        1 => drop(other.pop()),
        2 => other.insert(0, chance.byte()),
        _ => {}
    }
    (one, other)
}

fn check<S: ComparesKeys>(trial: &mut Trial<S>, one: &[u8], other: &[u8]) -> Outcome {
    let (lent, second) = (Lent::of(one), Lent::of(other));
    compared(trial, lent.slice(), second.slice())?;
    lent.same("the first key is changed", &Lent::of(one))?;
    second.same("the second key is changed", &Lent::of(other))
}

fn compared<S: ComparesKeys>(trial: &mut Trial<S>, one: &[u8], other: &[u8]) -> Outcome {
    let expected = same_key(one, other);
    let mut words = Words::about(&mut trial.chance, KEYS_WORDS);
    let code = trial.subject.same_key(one, other, words.slice_mut());
    trial.counts.input(code);
    let told = [u64::from(expected.equal), expected.pairs as u64];
    let room = words.slice().len() >= KEYS_WORDS;
    same("the return code", if room { GOOD } else { UNTOLD }, code)
        .and_then(|()| words.are(&told))
        .map_err(|found| {
            found
                .with("call", "fq_same_key")
                .bytes("one key", one)
                .bytes("other key", other)
        })
}

//! Images for the check: programs that pass it, programs with mistakes of
//! every rule, several at once too, and damaged images. Seeded and repeatable,
//! as those of [`crate::generate`].

mod codes;
mod large;
mod mistakes;
mod tiny;
mod written;

use self::large::large;
use self::mistakes::mistake;
use self::tiny::tiny;
use self::written::written;
use crate::generate::{self, Rng};
use crate::image::{image, MAIN};

/// The image of one case.
pub fn case(seed: u64, index: u64) -> Vec<u8> {
    let mut rng = Rng::new(seed, index);
    let rng = &mut rng;
    let mut program = match rng.below(100) {
        0..=34 => written(rng, 0),
        35..=49 => {
            let slips = rng.between(1, 3);
            written(rng, slips)
        }
        50..=71 => {
            let mut program = match rng.below(4) {
                0 => tiny(rng),
                _ => written(rng, 0),
            };
            for _ in 0..rng.pick(&[1, 1, 1, 2, 3, 5]) {
                mistake(rng, &mut program);
            }
            program
        }
        72..=91 => tiny(rng),
        92 => large(rng),
        93..=96 => return damaged(rng),
        _ => return generate::case(rng.draw(), 0),
    };
    if rng.chance(3) {
        // It is the number that makes a function main, and not the name.
        for function in &mut program.functions[1..] {
            function.name = MAIN.to_vec();
        }
    }
    image(&program)
}

fn name(function: usize) -> Vec<u8> {
    match function {
        0 => MAIN.to_vec(),
        _ => format!("f{function}").into_bytes(),
    }
}

/// An image that was a good one, cut, flipped, or longer or shorter by a byte.
fn damaged(rng: &mut Rng) -> Vec<u8> {
    let mut bytes = match rng.chance(50) {
        true => image(&written(rng, 0)),
        false => image(&tiny(rng)),
    };
    let at = rng.below(bytes.len());
    match rng.below(5) {
        0 => bytes.truncate(at),
        1 => bytes.insert(at, rng.below(40) as u8),
        2 => drop(bytes.remove(at)),
        _ => {
            for _ in 0..rng.between(1, 3) {
                let at = rng.below(bytes.len());
                bytes[at] ^= 1 << rng.below(8);
            }
        }
    }
    bytes
}

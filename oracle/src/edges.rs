//! The edges among the images that are compared: no bytes, the largest
//! numbers, and each size of the runner full, one short and one over. They
//! are measured, so that a reader can see how many there are of each.
//!
//! The text store cannot be filled by the runner: an image of 16,384 bytes
//! has at most [`MOST_TEXT`] bytes of text. The console fills it.

use crate::image::{self, Program, Role};
use crate::limits::{main_code, other_code, text, Answer, Most, Stores};
use crate::print::{self, MAX_IMAGE, UNITS};

/// Counts and lengths of an image, and places.
pub const ROLES: [Role; 7] = [
    Role::Constants,
    Role::Structs,
    Role::Functions,
    Role::Text,
    Role::Code,
    Role::Run,
    Role::Place,
];
/// None, the greatest of 16 bits and the next, the greatest of all.
pub const LARGEST: [u32; 4] = [0, 65_535, 65_536, 4_294_967_295];
/// 8 bytes say that there is one text beside main's name, and nothing else.
pub const MOST_TEXT: usize = MAX_IMAGE - 8;

/// Something that is measured of an image: its name, the numbers that are
/// looked for, and what the image has of it.
struct Measure {
    name: &'static str,
    edges: Vec<u64>,
    found: Vec<u64>,
}

fn around(name: &'static str, size: usize, found: Option<usize>) -> Measure {
    let size = size as u64;
    Measure {
        name,
        edges: vec![size - 1, size, size + 1],
        found: found.map(|found| found as u64).into_iter().collect(),
    }
}

/// Each edge and how many of the images have it, in a fixed order.
pub fn tally(images: impl Iterator<Item = Vec<u8>>) -> Vec<(String, u64)> {
    let mut out: Vec<(String, u64)> = measures(&[])
        .iter()
        .flat_map(|measure| names(measure).zip(std::iter::repeat(0)))
        .collect();
    for image in images {
        let found = measures(&image).into_iter().flat_map(|measure| {
            let found = measure.found;
            let edges = measure.edges.into_iter();
            edges.map(move |edge| found.contains(&edge))
        });
        for (entry, found) in out.iter_mut().zip(found) {
            entry.1 += u64::from(found);
        }
    }
    out
}

fn names(measure: &Measure) -> impl Iterator<Item = String> + '_ {
    let edges = measure.edges.iter();
    edges.map(|edge| format!("{} {edge}", measure.name))
}

fn measures(bytes: &[u8]) -> Vec<Measure> {
    let mut out = vec![Measure {
        name: "bytes of image",
        edges: [0, MAX_IMAGE - 1, MAX_IMAGE, MAX_IMAGE + 1]
            .map(|size| size as u64)
            .to_vec(),
        found: vec![bytes.len() as u64],
    }];
    out.extend(in_stores(bytes));
    out.extend(in_a_run(bytes));
    out.extend(numbers(bytes));
    out
}

/// What a whole image asks of the program's stores.
fn in_stores(bytes: &[u8]) -> Vec<Measure> {
    let stores = Stores::RUNNER;
    let program = image::parse(bytes).ok();
    let of = |size: fn(&Program) -> usize| program.as_ref().map(size);
    vec![
        around("constants", stores.constants, of(|p| p.constants.len())),
        around("structs", stores.structs, of(|p| p.structs.len())),
        around("functions", stores.functions, of(|p| p.functions.len())),
        around("bytes of main", stores.main_code, of(main_code)),
        around("bytes of other code", stores.other_code, of(other_code)),
        around("bytes of text", MOST_TEXT, of(text)),
    ]
}

/// The most that a run takes of the machine's stores, and of its units. One
/// over is the fault that says so.
fn in_a_run(bytes: &[u8]) -> Vec<Measure> {
    let stores = Stores::RUNNER;
    let report = print::run(bytes).ok().map(|ran| ran.report);
    let of = |size: usize, fault: u32, most: fn(&Most) -> usize| {
        report.as_ref().map(|report| match report.answer {
            Answer::Fault(number) if number == fault => size + 1,
            _ => most(&report.most),
        })
    };
    let units = report.as_ref().map(|report| match report.answer {
        Answer::Fault(13) => UNITS as usize + 1,
        _ => report.spent as usize,
    });
    vec![
        around("values", stores.values, of(stores.values, 9, |m| m.values)),
        around("frames", stores.frames, of(stores.frames, 10, |m| m.frames)),
        around("cells", stores.cells, of(stores.cells, 11, |m| m.cells)),
        around("units", UNITS as usize, units),
    ]
}

/// The largest numbers that an image says, by what they say.
fn numbers(bytes: &[u8]) -> Vec<Measure> {
    let numbers = image::numbers(bytes);
    let of = |role: Role| Measure {
        name: match role {
            Role::Constants => "number of constants",
            Role::Kind => "kind",
            Role::Structs => "number of structs",
            Role::Functions => "number of functions",
            Role::Text => "length of a text",
            Role::Code => "length of a code",
            Role::Run => "length of a run",
            Role::Place => "place",
        },
        edges: LARGEST.map(u64::from).to_vec(),
        found: numbers
            .iter()
            .filter(|number| number.role == role)
            .map(|number| number.value.into())
            .collect(),
    };
    ROLES.map(of).into_iter().collect()
}

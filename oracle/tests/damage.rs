//! The damaged images, and the records to compare with.

mod common;

use std::collections::BTreeSet;

use common::hex;
use oracle::image::{image, parse};
use oracle::{damage, print};

#[test]
fn a_damaged_image_is_refused_or_is_the_image_of_what_it_says() {
    let (mut taken, mut refused) = (0, 0);
    for bytes in damage::each(1) {
        match parse(&bytes) {
            Ok(program) => {
                assert_eq!(image(&program), bytes);
                taken += 1;
            }
            Err(offset) => {
                assert!(offset <= bytes.len());
                refused += 1;
            }
        }
    }
    assert_eq!((taken, refused), (12_959, 19_090));
}

#[test]
fn each_item_is_named_by_some_refusal() {
    for program in damage::small() {
        let whole = image(&program);
        // Where a cut image is refused, an item begins.
        let items: BTreeSet<usize> = (0..whole.len())
            .map(|length| parse(&whole[..length]).expect_err("it is cut"))
            .collect();
        let named: BTreeSet<usize> = damage::each(1)
            .iter()
            .filter(|bytes| bytes.len() >= whole.len())
            .filter_map(|bytes| parse(bytes).err())
            .collect();
        assert!(items.is_subset(&named));
        // What follows the end.
        assert!(named.contains(&whole.len()));
    }
}

#[test]
fn names_and_runs_are_damaged_in_every_way() {
    let damaged = damage::each(usize::MAX);
    for (bytes, offset) in [
        // a repeated struct name, the second and the third
        ("00 02 01 41 01 41 01 06 3C 6D 61 69 6E 3E 00", 4),
        ("00 03 00 01 41 00 01 06 3C 6D 61 69 6E 3E 00", 5),
        // no function; function 0 of another name
        ("00 00 00", 2),
        ("00 00 01 06 3C 4D 61 69 6E 3E 00", 3),
        // an empty run, first and second; one too long, first and second
        ("00 00 01 06 3C 6D 61 69 6E 3E 04 25 25 25 25 00 03", 15),
        (
            "00 00 01 06 3C 6D 61 69 6E 3E 04 25 25 25 25 01 03 00 04",
            17,
        ),
        ("00 00 01 06 3C 6D 61 69 6E 3E 04 25 25 25 25 05 03", 15),
        (
            "00 00 01 06 3C 6D 61 69 6E 3E 04 25 25 25 25 01 03 05 04",
            17,
        ),
        // a repeated place; too few runs; one more behind them
        (
            "00 00 01 06 3C 6D 61 69 6E 3E 04 25 25 25 25 02 03 02 03",
            18,
        ),
        ("00 00 01 06 3C 6D 61 69 6E 3E 04 25 25 25 25 02 03", 17),
        (
            "00 00 01 06 3C 6D 61 69 6E 3E 04 25 25 25 25 02 03 02 04 01 03",
            19,
        ),
    ] {
        let bytes = hex(bytes);
        assert_eq!(parse(&bytes), Err(offset));
        assert!(damaged.contains(&bytes));
    }
}

#[test]
fn what_loading_answers() {
    let p1 = image(&damage::small()[1]);
    assert_eq!(print::loader(&p1), "loaded 2 0 1 6\n");
    assert_eq!(print::loader(&p1[..38]), "refused 20 38\n");
    assert_eq!(print::loader(&[0; 16_385]), "refused 22\n");
    let all = image(&damage::small()[2]);
    assert_eq!(print::loader(&all), "loaded 5 3 3 13\n");
}

#[test]
fn the_record_of_an_empty_main() {
    let empty = image(&damage::small()[0]);
    assert_eq!(empty, hex("00 00 01 06 3C 6D 61 69 6E 3E 00"));
    let parts: [&[u8]; 5] = [
        &[11, 0, 0, 0, 15, 0, 0, 0, 25, 0, 0, 0, 17, 0, 0, 0],
        &empty,
        b"loaded 0 0 1 6\n",
        b"continue\nspent 0\nstack 0\n",
        b".CODE 0 (<main>)\n",
    ];
    assert_eq!(print::record(&empty), parts.concat());
}

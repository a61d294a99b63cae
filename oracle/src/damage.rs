//! Small images and what becomes of them when they are damaged, in full: no
//! chance is involved, so that every offset of a refusal comes up.

use crate::image::{image, Constant, Function, Program, MAIN};
use crate::op::Op;

/// The images that are damaged: an empty main; P1; and one that has every
/// kind of item, texts of no bytes, and runs.
pub fn small() -> Vec<Program> {
    let p1 = Program {
        constants: vec![
            Constant::Scalar(42f64.to_bits()),
            Constant::Scalar(1f64.to_bits()),
        ],
        structs: vec![],
        functions: vec![Function {
            name: MAIN.to_vec(),
            code: vec![0, 0, 0, 0, 1, 0, Op::Add as u8, Op::Return as u8],
            places: vec![0; 8],
        }],
    };
    let all = Program {
        constants: vec![
            Constant::Boolean(true),
            Constant::String(b"xy".to_vec()),
            Constant::Scalar(0xFFF8_0000_0000_0123),
            Constant::FunctionReference(b"f".to_vec()),
            Constant::String(vec![]),
        ],
        structs: vec![b"A".to_vec(), vec![], b"AB".to_vec()],
        functions: vec![
            Function {
                name: MAIN.to_vec(),
                code: vec![Op::Call as u8, 1, 0, 0, 0, Op::Return as u8],
                places: vec![7, 7, 300, 300, 300, 7],
            },
            Function {
                name: b"f".to_vec(),
                code: vec![Op::GetLastResult as u8, Op::Return as u8],
                places: vec![1, 2],
            },
            Function::default(),
        ],
    };
    vec![Program::new(), p1, all]
}

/// Every damage of names and runs, and each `step`-th damage of the small
/// images' bytes.
pub fn each(step: usize) -> Vec<Vec<u8>> {
    let mut all = vec![];
    for program in small() {
        bytes(&image(&program), &mut all);
    }
    let mut out: Vec<_> = all.into_iter().step_by(step).collect();
    struct_names(&mut out);
    mains(&mut out);
    runs(&mut out);
    out
}

/// The image as it is; each byte made any other; cut at each length; each
/// byte taken out; a byte or two behind the end; each byte, which may be a
/// number, padded, or replaced by a number at the edge of 32 bits.
fn bytes(image: &[u8], out: &mut Vec<Vec<u8>>) {
    out.push(image.to_vec());
    for at in 0..image.len() {
        for change in 1..=255 {
            let mut changed = image.to_vec();
            changed[at] ^= change;
            out.push(changed);
        }
        out.push(image[..at].to_vec());
        out.push([&image[..at], &image[at + 1..]].concat());
        for groups in 1..=5 {
            let mut padded = vec![image[at] | 0x80];
            padded.resize(groups, 0x80);
            padded.push(0);
            out.push([&image[..at], &padded, &image[at + 1..]].concat());
        }
        for edge in [
            &[0xFF, 0xFF, 0xFF, 0xFF, 0x0F][..],
            &[0xFF, 0xFF, 0xFF, 0xFF, 0x1F],
            &[0x80, 0x80, 0x80, 0x80, 0x10],
            &[0xFF, 0xFF, 0xFF, 0xFF, 0xFF, 0x01],
            &[0x80, 0x80, 0x04],
            &[0x81, 0x80, 0x04],
        ] {
            out.push([&image[..at], edge, &image[at + 1..]].concat());
        }
    }
    for behind in 0..=255 {
        out.push([image, &[behind]].concat());
        out.push([image, &[0, behind]].concat());
    }
}

/// Up to three struct names out of four, repeated ones too.
fn struct_names(out: &mut Vec<Vec<u8>>) {
    let names: [&[u8]; 4] = [b"", b"A", b"B", b"AB"];
    for choice in choices(names.len(), 3) {
        let mut program = Program::new();
        program.structs = choice.iter().map(|&n| names[n].to_vec()).collect();
        out.push(image(&program));
    }
}

/// No function; function 0 of another name; `<main>` again, and not first.
fn mains(out: &mut Vec<Vec<u8>>) {
    let mut none = Program::new();
    none.functions.clear();
    out.push(image(&none));
    let names: [&[u8]; 9] = [
        b"", b"<", b"<main", b"main>", b"<main>", b"<main> ", b"<Main>", b"<main)", b"f",
    ];
    for choice in choices(names.len(), 2) {
        let mut program = Program::new();
        program.functions = choice
            .iter()
            .map(|&n| Function {
                name: names[n].to_vec(),
                ..Function::default()
            })
            .collect();
        out.push(image(&program));
    }
}

/// Up to three runs of 0, 1, 2 or 5 bytes with two places, for 4 bytes of
/// code: empty, too long, too few, repeated, and right.
fn runs(out: &mut Vec<Vec<u8>>) {
    let mut program = Program::new();
    program.functions[0].code = vec![Op::Return as u8; 4];
    program.functions[0].places = vec![3; 4];
    let whole = image(&program);
    // The last two bytes are the one run: its length and its place.
    let front = &whole[..whole.len() - 2];
    for choice in choices(8, 3) {
        let mut bytes = front.to_vec();
        for run in choice {
            bytes.extend([[0, 1, 2, 5][run / 2], 3 + (run % 2) as u8]);
        }
        out.push(bytes);
    }
}

/// All rows of none to `most` numbers below `n`.
fn choices(n: usize, most: usize) -> Vec<Vec<usize>> {
    let mut out = vec![vec![]];
    let mut last = out.clone();
    for _ in 0..most {
        last = last
            .iter()
            .flat_map(|row| (0..n).map(move |next| [row.as_slice(), &[next]].concat()))
            .collect();
        out.extend(last.clone());
    }
    out
}

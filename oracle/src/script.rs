//! A script's lines, their words, and the numbers and bytes that words say.

/// The longest script that the console reads; what stands behind is not read.
pub const MAX_SCRIPT: usize = 131_072;
/// The most bytes that a line may say.
pub const SPACE: usize = 16_384;

/// The lines, each with its number; `first` is that of the first.
pub fn lines(script: &[u8], first: u64) -> impl Iterator<Item = (u64, &[u8])> {
    let read = &script[..script.len().min(MAX_SCRIPT)];
    (first..).zip(read.split(|byte| *byte == b'\n'))
}

fn without_blanks(text: &[u8]) -> &[u8] {
    let blanks = text.iter().take_while(|byte| **byte == b' ').count();
    &text[blanks..]
}

fn first_word(text: &[u8]) -> &[u8] {
    let end = text.iter().position(|byte| *byte == b' ');
    &text[..end.unwrap_or(text.len())]
}

/// The line from its word `k` on.
pub fn words_from(line: &[u8], k: usize) -> &[u8] {
    (0..k).fold(without_blanks(line), |rest, _| {
        without_blanks(&rest[first_word(rest).len()..])
    })
}

/// Word `k` of a line; empty where it has fewer.
pub fn word(line: &[u8], k: usize) -> &[u8] {
    first_word(words_from(line, k))
}

/// What a digit stands for. Only capitals count.
fn digit(byte: u8) -> Option<u64> {
    match byte {
        b'0'..=b'9' => Some(u64::from(byte - b'0')),
        b'A'..=b'F' => Some(u64::from(byte - b'A') + 10),
        _ => None,
    }
}

/// A number below 2^64, in digits of a base.
fn in_base(word: &[u8], base: u64) -> Option<u64> {
    if word.is_empty() {
        return None;
    }
    word.iter().try_fold(0u64, |number, byte| {
        let digit = digit(*byte).filter(|digit| *digit < base)?;
        number.checked_mul(base)?.checked_add(digit)
    })
}

pub fn decimal(word: &[u8]) -> Option<u64> {
    in_base(word, 10)
}

pub fn hex(word: &[u8]) -> Option<u64> {
    in_base(word, 16)
}

/// The numbers of the words from `k` on, if they are as many as there are
/// bounds and none is above its bound.
pub fn numbers<const N: usize>(line: &[u8], k: usize, most: [u64; N]) -> Option<[u64; N]> {
    let mut out = [0; N];
    for (index, most) in most.into_iter().enumerate() {
        out[index] = decimal(word(line, k + index)).filter(|number| *number <= most)?;
    }
    word(line, k + N).is_empty().then_some(out)
}

/// The bytes that words say in hex, two digits to a byte, blanks between
/// where one likes.
pub fn bytes(words: &[u8]) -> Option<Vec<u8>> {
    let digits: Option<Vec<u64>> = words
        .iter()
        .filter(|byte| **byte != b' ')
        .map(|byte| digit(*byte))
        .collect();
    let digits = digits.filter(|digits| digits.len() % 2 == 0 && digits.len() / 2 <= SPACE)?;
    let pairs = digits.chunks_exact(2);
    Some(pairs.map(|pair| (pair[0] * 16 + pair[1]) as u8).collect())
}

/// Bytes as a script says them.
pub fn in_hex(bytes: &[u8]) -> String {
    bytes.iter().map(|byte| format!("{byte:02X}")).collect()
}

#[cfg(test)]
mod tests {
    use super::*;

    #[test]
    fn words_stand_between_blanks() {
        assert_eq!(word(b"  op1  0 7", 0), b"op1");
        assert_eq!(word(b"  op1  0 7", 1), b"0");
        assert_eq!(word(b"  op1  0 7", 3), b"");
        assert_eq!(words_from(b"#! a  b ", 1), b"a  b ");
        assert_eq!(words_from(b"new ", 1), b"");
    }

    #[test]
    fn numbers_are_decimal_and_capital_hex() {
        assert_eq!(decimal(b"007"), Some(7));
        for none in [&b""[..], b"-1", b"1 ", b"A", b"18446744073709551616"] {
            assert_eq!(decimal(none), None);
        }
        assert_eq!(decimal(b"18446744073709551615"), Some(u64::MAX));
        assert_eq!(hex(b"FFFFFFFFFFFFFFFF"), Some(u64::MAX));
        assert_eq!(hex(b"0FFFFFFFFFFFFFFFF"), Some(u64::MAX));
        assert_eq!(hex(b"10000000000000000"), None);
        assert_eq!(hex(b"ff"), None);
    }

    #[test]
    fn as_many_numbers_as_asked_and_none_above_its_most() {
        assert_eq!(numbers(b"patch 1 2", 1, [9, 9]), Some([1, 2]));
        assert_eq!(numbers(b"patch 1 2 ", 1, [9, 9]), Some([1, 2]));
        for line in [&b"patch 1"[..], b"patch 1 2 3", b"patch 1 10", b"patch 1 x"] {
            assert_eq!(numbers(line, 1, [9, 9]), None);
        }
    }

    #[test]
    fn bytes_are_pairs_of_digits() {
        assert_eq!(bytes(b"41 4 2"), Some(vec![0x41, 0x42]));
        assert_eq!(bytes(b""), Some(vec![]));
        assert_eq!(bytes(b"4"), None);
        assert_eq!(bytes(b"4a"), None);
        assert_eq!(bytes(&vec![b'0'; 2 * SPACE]), Some(vec![0; SPACE]));
        assert_eq!(bytes(&vec![b'0'; 2 * SPACE + 2]), None);
    }

    #[test]
    fn a_script_is_read_so_far() {
        let long = [vec![b'#'; MAX_SCRIPT - 1], b"\nnew\n".to_vec()].concat();
        assert_eq!(lines(&long, 1).count(), 2);
        assert_eq!(lines(&long, 1).nth(1), Some((2, &b""[..])));
    }
}

//! The name that was meant, where one comes close.

/// The candidate that a word is nearest to, if it is near at all: case aside,
/// at most a third of its letters are wrong, missing, added or swapped.
pub fn near<'a>(word: &str, candidates: impl Iterator<Item = &'a str>) -> Option<&'a str> {
    let word: Vec<char> = word.to_lowercase().chars().collect();
    let most = (word.len() / 3).max(1);
    candidates
        .map(|candidate| {
            let letters: Vec<char> = candidate.to_lowercase().chars().collect();
            (distance(&word, &letters), candidate)
        })
        .filter(|(steps, candidate)| *steps <= most && *steps < candidate.chars().count())
        .min()
        .map(|(_, candidate)| candidate)
}

/// How many letters are to be changed, taken out, put in, or swapped with their
/// neighbour, to make one word of the other.
fn distance(a: &[char], b: &[char]) -> usize {
    let mut rows = vec![vec![0; b.len() + 1]; a.len() + 1];
    for i in 0..=a.len() {
        for j in 0..=b.len() {
            rows[i][j] = if i == 0 || j == 0 {
                i + j
            } else {
                let changed = rows[i - 1][j - 1] + usize::from(a[i - 1] != b[j - 1]);
                let least = changed.min(rows[i - 1][j] + 1).min(rows[i][j - 1] + 1);
                if i > 1 && j > 1 && a[i - 1] == b[j - 2] && a[i - 2] == b[j - 1] {
                    least.min(rows[i - 2][j - 2] + 1)
                } else {
                    least
                }
            };
        }
    }
    rows[a.len()][b.len()]
}

#[cfg(test)]
mod tests {
    use super::near;

    #[test]
    fn a_near_name_is_found_and_a_far_one_is_not() {
        let names = ["LoadConstant", "GreatorOrEqual", "Return", "rate"];
        let of = |word| near(word, names.into_iter());
        assert_eq!(of("GreaterOrEqual"), Some("GreatorOrEqual"));
        assert_eq!(of("loadconstant"), Some("LoadConstant"));
        assert_eq!(of("Retrun"), Some("Return"));
        assert_eq!(of("rat"), Some("rate"));
        assert_eq!(of("x"), None);
        assert_eq!(of("standing"), None);
    }
}

//! The first line in which two outputs differ, both zeros counted equal.

/// A line that differs. Lines are counted from 1.
#[derive(Clone, Debug, PartialEq)]
pub struct Difference {
    pub line: usize,
    pub expected: String,
    pub found: String,
}

/// What stands for a line that an output does not have.
const NO_LINE: &str = "(no line)";

/// The first line that differs. A missing line feed at the end differs too.
pub fn first_difference(expected: &str, found: &str) -> Option<Difference> {
    let mut expected = expected.split('\n');
    let mut found = found.split('\n');
    let mut line = 0;
    loop {
        line += 1;
        let (one, other) = (expected.next(), found.next());
        match (one, other) {
            (None, None) => return None,
            (Some(one), Some(other)) if same_line(one, other) => {}
            _ => {
                let text = |line: Option<&str>| line.unwrap_or(NO_LINE).to_string();
                return Some(Difference { line, expected: text(one), found: text(other) });
            }
        }
    }
}

/// The same words one by one; a result, which stands after the code and the answer, may be either
/// zero.
fn same_line(one: &str, other: &str) -> bool {
    let words = |line| str::split(line, ' ').enumerate().map(one_zero);
    one == other || words(one).eq(words(other))
}

/// A result word with minus zero written as zero.
fn one_zero((place, word): (usize, &str)) -> &str {
    if place >= 2 && word == "80000000" {
        "00000000"
    } else {
        word
    }
}

#[cfg(test)]
mod tests {
    use super::*;

    #[test]
    fn both_zeros_are_equal() {
        assert_eq!(first_difference("4 0 80000000\n", "4 0 00000000\n"), None);
    }

    #[test]
    fn a_code_is_no_zero() {
        assert!(first_difference("80000000 9\n", "00000000 9\n").is_some());
    }

    #[test]
    fn other_words_are_not() {
        let difference = first_difference("a\n4 0 80000000\n", "a\n4 0 80000001\n");
        assert_eq!(difference.map(|difference| difference.line), Some(2));
        assert!(first_difference("4 0 3f800000\n", "4 0 3F800000\n").is_some());
        assert!(first_difference("4 0\n", "4 0 \n").is_some());
    }

    #[test]
    fn lines_too_many_or_too_few_differ() {
        assert!(first_difference("0 0\n", "0 0").is_some());
        assert!(first_difference("0 0\n", "0 0\n0 0\n").is_some());
        assert!(first_difference("0 0\n1 0\n", "0 0\n").is_some());
    }
}

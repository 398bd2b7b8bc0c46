//! A text's lines, their words and their words for people: rows 31 and 32.

use super::Told;

pub const TEXT_LIMIT: usize = 1_048_576;

/// A line that has words.
pub struct Line<'t> {
    /// From 1; lines without words count too.
    pub number: usize,
    /// Never empty.
    pub words: Vec<&'t [u8]>,
    pub people: &'t [u8],
}

pub fn read(text: &[u8]) -> Result<Vec<Line<'_>>, Told> {
    if text.len() > TEXT_LIMIT {
        return Err(Told::at(31, 0));
    }
    if let Some(at) = text.iter().position(|b| !is_allowed(*b)) {
        let ends = text[..at].iter().filter(|b| **b == b'\n').count();
        return Err(Told::at(32, ends + 1));
    }
    let lines = (1..).zip(text.split(|b| *b == b'\n')).map(|(number, line)| cut(number, line));
    Ok(lines.filter(|line| !line.words.is_empty()).collect())
}

fn is_allowed(b: u8) -> bool {
    matches!(b, 0x20..=0x7E | b'\t' | b'\n' | b'\r')
}

fn is_blank(b: &u8) -> bool {
    matches!(b, b' ' | b'\t' | b'\r')
}

/// The first bar ends what a line says.
fn cut(number: usize, line: &[u8]) -> Line<'_> {
    let mut parts = line.splitn(2, |b| *b == b'|');
    let said = parts.next().unwrap_or_default();
    let words = said.split(is_blank).filter(|word| !word.is_empty()).collect();
    Line { number, words, people: trimmed(parts.next().unwrap_or_default()) }
}

/// Without the blanks at both ends.
fn trimmed(bytes: &[u8]) -> &[u8] {
    let from = bytes.iter().position(|b| !is_blank(b)).unwrap_or(bytes.len());
    let to = bytes.iter().rposition(|b| !is_blank(b)).map_or(from, |last| last + 1);
    &bytes[from..to]
}

#[cfg(test)]
mod tests {
    use super::*;

    #[test]
    fn lines_with_words() {
        let text = b"\n a\tb\r c |  x | y\r\n\r \t\n| r\n|d\n d|\ne| ";
        let lines = read(text).ok().unwrap();
        let found: Vec<_> = lines.iter().map(|line| (line.number, line.words.join(&b'+'), line.people)).collect();
        let expected: [(usize, &[u8], &[u8]); 3] = [(2, b"a+b+c", b"x | y"), (6, b"d", b""), (7, b"e", b"")];
        assert_eq!(found, expected.map(|(number, words, people)| (number, words.to_vec(), people)));
    }

    #[test]
    fn bytes() {
        for b in 0..=255u8 {
            let told = read(&[b'\n', b'\n', b, b'\n', 0]).err();
            let allowed = (0x20..=0x7E).contains(&b) || [9, 10, 13].contains(&b);
            let line = if allowed { 4 + u64::from(b == 10) } else { 3 };
            assert_eq!(told, Some(Told { number: 32, detail: line, section: 0 }), "{b}");
        }
    }
}

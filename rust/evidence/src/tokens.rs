//! The tokens of antt's text: names, projections, marks and quoted texts. Comments are left out.

/// The characters that no name has, besides blanks.
const MARKS: &str = "(){}.;,@\"«»";

/// A token and where it stands: a name, alone, behind its module or with its projections (`length`,
/// `Sheet.step`, `s.rows.0`), a projection of what stands in parentheses (`.rows`), a mark or a
/// quoted text. Lines and columns count from 0.
#[derive(Clone, Copy)]
pub struct Token<'a> {
    pub text: &'a str,
    pub line: usize,
    pub column: usize,
}

impl Token<'_> {
    /// Whether the token is a name, or one of the language's words, which name nothing.
    pub fn is_name(&self) -> bool {
        let is_mark = self.text.starts_with(|first| MARKS.contains(first));
        !is_mark && !matches!(self.text, ":" | "=")
    }
}

/// The tokens of a text, one after the other.
pub struct Tokens<'a> {
    rest: &'a str,
    line: usize,
    column: usize,
}

impl<'a> Tokens<'a> {
    pub fn new(text: &'a str) -> Tokens<'a> {
        Tokens {
            rest: text,
            line: 0,
            column: 0,
        }
    }

    fn skip_blanks_and_comments(&mut self) {
        let mut length = blank_length(self.rest);
        while length > 0 {
            self.advance(length);
            length = blank_length(self.rest);
        }
    }

    fn advance(&mut self, length: usize) {
        let (passed, rest) = self.rest.split_at(length);
        self.rest = rest;
        match passed.rsplit_once('\n') {
            Some((lines, last)) => {
                self.line += 1 + lines.matches('\n').count();
                self.column = last.chars().count();
            }
            None => self.column += passed.chars().count(),
        }
    }
}

impl<'a> Iterator for Tokens<'a> {
    type Item = Token<'a>;

    fn next(&mut self) -> Option<Token<'a>> {
        self.skip_blanks_and_comments();
        let first = self.rest.chars().next()?;
        let token = Token {
            text: &self.rest[..token_length(self.rest, first)],
            line: self.line,
            column: self.column,
        };
        self.advance(token.text.len());
        Some(token)
    }
}

/// The length of the blanks or of the comment at the start of a text, 0 where there is neither.
fn blank_length(text: &str) -> usize {
    if text.starts_with("--") {
        text.find('\n').unwrap_or(text.len())
    } else if text.starts_with("{-") {
        text.find("-}").map_or(text.len(), |end| end + 2)
    } else {
        text.len() - text.trim_start().len()
    }
}

/// The length of the token at the start of a text.
fn token_length(text: &str, first: char) -> usize {
    match first {
        '"' => quoted_length(text),
        '.' => 1 + name_length(&text[1..]),
        _ if MARKS.contains(first) => first.len_utf8(),
        _ => qualified_length(text),
    }
}

/// The length of a quoted text, with its quotes; of one without its end, all.
fn quoted_length(text: &str) -> usize {
    let mut escaped = false;
    for (at, character) in text.char_indices().skip(1) {
        if character == '"' && !escaped {
            return at + 1;
        }
        escaped = character == '\\' && !escaped;
    }
    text.len()
}

/// The length of a name with those that follow it tightly, each behind its dot.
fn qualified_length(text: &str) -> usize {
    let mut length = name_length(text);
    while let Some(below) = text[length..].strip_prefix('.') {
        match name_length(below) {
            0 => break,
            more => length += 1 + more,
        }
    }
    length
}

fn name_length(text: &str) -> usize {
    text.find(|character: char| character.is_whitespace() || MARKS.contains(character))
        .unwrap_or(text.len())
}

#[cfg(test)]
mod tests {
    use super::*;

    fn texts(text: &str) -> Vec<&str> {
        Tokens::new(text).map(|token| token.text).collect()
    }

    #[test]
    fn a_projection_stands_with_its_name_and_alone_behind_parentheses() {
        assert_eq!(
            texts("f s.rows (Sheet.step c.before).before.0"),
            [
                "f",
                "s.rows",
                "(",
                "Sheet.step",
                "c.before",
                ")",
                ".before",
                ".0"
            ]
        );
    }

    #[test]
    fn the_dot_of_a_binder_is_a_mark() {
        assert_eq!(texts("λ x. y"), ["λ", "x", ".", "y"]);
        assert_eq!(texts("use M.{a}"), ["use", "M", ".", "{", "a", "}"]);
    }

    #[test]
    fn comments_are_left_out_and_quoted_texts_are_whole() {
        assert_eq!(
            texts("a -- b\n{- c\nd -} \"-- \\\" e\" at'-x"),
            ["a", "\"-- \\\" e\"", "at'-x"]
        );
        assert_eq!(texts("b'\"' no end"), ["b'", "\"' no end"]);
    }

    #[test]
    fn lines_and_columns_count_characters() {
        let places: Vec<(usize, usize)> = Tokens::new("λ a\n\n  ℕ → b {- λ\nλ -} c")
            .map(|token| (token.line, token.column))
            .collect();
        assert_eq!(places, [(0, 0), (0, 2), (2, 2), (2, 4), (2, 6), (3, 5)]);
    }

    #[test]
    fn only_names_are_names() {
        let names: Vec<&str> = Tokens::new("◌on◌gives◌ : (x.y) = .z \"t\" «in» ;")
            .filter(Token::is_name)
            .map(|token| token.text)
            .collect();
        assert_eq!(names, ["◌on◌gives◌", "x.y", "in"]);
    }
}

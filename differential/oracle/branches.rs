//! Puts a probe round every condition of a source file and round each operand of `&&` and `||`, and a mark into every
//! function, arm of a `match`, `if let` and `else`, so that a run can tell what it reached. Used by the build for a copy
//! of the original; the comparison itself runs the files as they are.

/// A condition, with two outcomes, or a mark, with one.
pub struct Probe {
    pub file: String,
    pub line: usize,
    pub text: String,
    pub mark: bool,
}

/// Line comments go, lines stay.
fn without_comments(text: &str) -> String {
    text.lines().map(|l| l.find("//").map_or(l, |at| &l[..at])).collect::<Vec<_>>().join("\n") + "\n"
}

fn closing(c: char) -> char {
    match c {
        '(' => ')',
        '[' => ']',
        _ => '}',
    }
}

struct Walk<'a> {
    file: &'a str,
    text: Vec<char>,
    probes: &'a mut Vec<Probe>,
}

/// A piece of an expression as far as it was read: its operands, and where each began.
#[derive(Default)]
struct Piece {
    done: String,
    operand: String,
    begin: Option<usize>,
    operators: usize,
    tested: bool,
}

/// What stands before a block that gets a mark: a function's name, `if let ..`, `else`.
type Marked = Option<String>;

impl Walk<'_> {
    fn wrapped(&mut self, operand: &str, begin: Option<usize>) -> String {
        let Some(begin) = begin else { return operand.to_string() };
        let lead = operand.len() - operand.trim_start().len();
        let (space, rest) = operand.split_at(lead);
        let core = rest.trim_end();
        let id = self.add(begin, core, false);
        format!("{space}crate::probe({id}, {core}){}", &rest[core.len()..])
    }

    fn add(&mut self, begin: usize, text: &str, mark: bool) -> usize {
        let line = self.text[..begin].iter().filter(|c| **c == '\n').count() + 1;
        let text = text.split_whitespace().collect::<Vec<_>>().join(" ");
        self.probes.push(Probe { file: self.file.to_string(), line, text, mark });
        self.probes.len() - 1
    }

    fn mark(&mut self, begin: usize, text: &str) -> String {
        format!("crate::probe({}, true);", self.add(begin, text, true))
    }

    fn follows(&self, at: usize, what: char) -> bool {
        self.text[at..].iter().find(|c| !c.is_whitespace()) == Some(&what)
    }

    fn up_to(&self, at: usize, ends: &[char]) -> String {
        self.text[at..].iter().take_while(|c| !ends.contains(c)).collect()
    }

    fn finish(&mut self, out: &mut String, piece: &mut Piece) {
        let p = std::mem::take(piece);
        out.push_str(&p.done);
        if p.operators > 0 || p.tested {
            out.push_str(&self.wrapped(&p.operand, p.begin));
        } else {
            out.push_str(&p.operand);
        }
    }

    /// The text from `at` up to an unmatched closing bracket, with its probes; and where that bracket is.
    fn walk(&mut self, mut at: usize) -> (String, usize) {
        let mut out = String::new();
        let mut piece = Piece::default();
        let mut marked: Marked = None;
        let mut arm = false;
        while at < self.text.len() {
            let c = self.text[at];
            let next = self.text.get(at + 1).copied().unwrap_or(' ');
            let last = if at > 0 { self.text[at - 1] } else { ' ' };
            let word: String = if !(last.is_alphanumeric() || last == '_') {
                self.text[at..].iter().take_while(|c| c.is_alphanumeric() || **c == '_').collect()
            } else {
                String::new()
            };
            if matches!(c, ')' | ']' | '}') {
                break;
            } else if ["if", "while", "return", "let", "match", "else", "in"].contains(&word.as_str()) {
                self.finish(&mut out, &mut piece);
                out.push_str(&word);
                at += word.len();
                let binds = self.text[at..].iter().collect::<String>().trim_start().starts_with("let ");
                piece.tested = word == "if" && !binds;
                match word.as_str() {
                    "else" if self.follows(at, '{') => marked = Some("else".into()),
                    "if" | "while" if binds => marked = Some(word + &self.up_to(at, &['{'])),
                    _ => {}
                }
                continue;
            } else if word == "fn" {
                marked = Some(word + &self.up_to(at + 2, &['(', '<']));
                piece.operand.push(c);
            } else if (c == '&' && next == '&') || (c == '|' && next == '|') {
                let operand = std::mem::take(&mut piece.operand);
                let begin = piece.begin.take();
                let wrapped = self.wrapped(&operand, begin);
                piece.done.push_str(&wrapped);
                piece.done.push(c);
                piece.done.push(next);
                piece.operators += 1;
                at += 2;
                continue;
            } else if matches!(c, '(' | '[') {
                piece.begin.get_or_insert(at);
                let (inner, end) = self.walk(at + 1);
                piece.operand.push(c);
                piece.operand.push_str(&inner);
                piece.operand.push(closing(c));
                at = end + 1;
                continue;
            } else if c == '{' {
                self.finish(&mut out, &mut piece);
                out.push('{');
                if let Some(text) = marked.take() {
                    out.push_str(&self.mark(at, &text));
                }
                let (inner, end) = self.walk(at + 1);
                out.push_str(&inner);
                out.push('}');
                at = end + 1;
                continue;
            } else if c == '=' && next == '>' {
                let pattern = std::mem::take(&mut piece);
                out.push_str(&pattern.done);
                out.push_str(&pattern.operand);
                out.push_str("=>");
                at += 2;
                if self.follows(at, '{') {
                    marked = Some(pattern.operand);
                } else {
                    arm = true;
                    out.push('{');
                    out.push_str(&self.mark(at, &pattern.operand));
                }
                continue;
            } else if matches!(c, ';' | ',')
                || (c == ':' && next != ':' && last != ':')
                || (c == '=' && next != '=' && !matches!(last, '=' | '!' | '<' | '>'))
            {
                self.finish(&mut out, &mut piece);
                if c == ',' && std::mem::take(&mut arm) {
                    out.push('}');
                }
                if c == ';' {
                    marked = None;
                }
                out.push(c);
            } else {
                if !c.is_whitespace() {
                    piece.begin.get_or_insert(at);
                }
                piece.operand.push(c);
            }
            at += 1;
        }
        self.finish(&mut out, &mut piece);
        if arm {
            out.push('}');
        }
        (out, at)
    }
}

pub fn instrumented(file: &str, text: &str, probes: &mut Vec<Probe>) -> String {
    let text = without_comments(text).chars().collect();
    Walk { file, text, probes }.walk(0).0
}

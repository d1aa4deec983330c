//! A function for each form, which takes what belongs to it and stops at the first byte that can't go on.
use super::brackets::Brackets;
use super::{is_of_a_name, word_at, FlipFlop, Gate, Misspelled, Spelling, Statement, Stuck, Text, Word, LONGEST_NAME};
use crate::kind::Kind;

/// The kinds of gates that the notation has a word for, in the order in which they are listed. No word begins another.
const GATES: [Kind; 8] = [Kind::Buffer, Kind::Not, Kind::And, Kind::Nand, Kind::Or, Kind::Nor, Kind::Xor, Kind::Xnor];

/// The word of a flip-flop, which begins no other and which no other begins.
const FLIP_FLOP: &str = "DFF";

/// What some files have for BUFF.
const SHORT_BUFFER: &str = "BUF";

/// Words for what the notation has none for: the one that the commands print, the one in pictures, and the one that other tools have.
const SELECTOR: [&str; 3] = [Kind::Selector.word(), "SEL", "MUX"];

type Read<T> = Result<T, Stuck>;

struct Reader<'a> {
    text: &'a [u8],
    spelling: Spelling,
    at: usize,
    misspelled: Vec<Misspelled<'a>>,
}

pub fn read(text: &[u8], spelling: Spelling) -> Read<Text<'_>> {
    let mut reader = Reader { text, spelling, at: 0, misspelled: vec![] };
    let mut statements = vec![];
    loop {
        statements.extend(reader.line()?);
        if reader.ahead().is_none() {
            return Ok(Text { bytes: text, statements, misspelled: reader.misspelled });
        }
        reader.at += 1; // the line feed
    }
}

impl<'a> Reader<'a> {
    /// The byte that is not yet taken, if there is one.
    fn ahead(&self) -> Option<u8> {
        self.text.get(self.at).copied()
    }

    fn blanks(&mut self) {
        while let Some(b' ' | b'\t' | b'\r') = self.ahead() {
            self.at += 1;
        }
    }

    /// A line up to its end: a statement or none, a comment or none.
    fn line(&mut self) -> Read<Option<Statement<'a>>> {
        self.blanks();
        let statement = match self.ahead() {
            None | Some(b'\n' | b'#') => None,
            _ => Some(self.statement()?),
        };
        self.blanks();
        if self.ahead() == Some(b'#') {
            self.at += self.text[self.at..].iter().take_while(|&&byte| byte != b'\n').count();
        }
        match self.ahead() {
            None | Some(b'\n') => Ok(statement),
            _ => Err(self.must("after `)`", "the end of the line or `#`")),
        }
    }

    /// What follows the first word decides.
    fn statement(&mut self) -> Read<Statement<'a>> {
        let first = self.name("at the beginning of a line", "INPUT, OUTPUT, a name, `#` or the end of the line")?;
        let keyword = ["INPUT", "OUTPUT"].into_iter().find(|keyword| self.is(first.name, keyword));
        self.blanks();
        match (keyword, self.ahead()) {
            (Some(keyword), Some(b'(')) => {
                self.note(first, keyword);
                let name = self.brackets(first, Brackets::Name)?.remove(0);
                Ok(if keyword == "INPUT" { Statement::Input(name) } else { Statement::Output(name) })
            }
            (_, Some(b'=')) => self.definition(first),
            (Some(_), _) => Err(self.must(&format!("after {first}"), "`(` or `=`")),
            (None, ahead) => {
                let mut stuck = self.must(&format!("after {first}"), "`=`");
                if ahead == Some(b'(') {
                    stuck.says += match self.spelling {
                        Spelling::Strict | Spelling::Clocked => "; only INPUT and OUTPUT, in capitals, are followed by `(`",
                        Spelling::Wide => "; only INPUT and OUTPUT are followed by `(`",
                    };
                }
                Err(stuck)
            }
        }
    }

    /// From `=` on.
    fn definition(&mut self, name: Word<'a>) -> Read<Statement<'a>> {
        self.at += 1;
        let (word, kind) = self.kind()?;
        self.blanks();
        if self.ahead() != Some(b'(') {
            return Err(self.must(&format!("after {word}"), "`(`"));
        }
        let brackets = kind.map_or(Brackets::OneSource, |kind| Brackets::of(kind, self.spelling));
        let sources = self.brackets(word, brackets)?;
        Ok(match kind {
            Some(kind) => Statement::Gate(Gate { name, kind, sources }),
            None => Statement::FlipFlop(FlipFlop { state: name, data: sources[0], end: self.at }),
        })
    }

    /// The word of a kind, after blanks: letter by letter, as far as there is one that begins so. That of a flip-flop is no kind.
    fn kind(&mut self) -> Read<(Word<'a>, Option<Kind>)> {
        self.blanks();
        let begin = self.at;
        while self.at < self.text.len() && self.kinds_from(&self.text[begin..=self.at]).next().is_some() {
            self.at += 1;
        }
        let word = Word { at: begin, name: &self.text[begin..self.at] };
        let wide = self.spelling == Spelling::Wide;
        let kind = match GATES.into_iter().find(|kind| self.is(word.name, kind.word())) {
            None if self.reads_flip_flops() && self.is(word.name, FLIP_FLOP) => None,
            None if wide && self.is(word.name, SHORT_BUFFER) => Some(Kind::Buffer),
            None => return Err(self.no_kind(word)),
            kind => kind,
        };
        self.note(word, kind.map_or(FLIP_FLOP, Kind::word));
        Ok((word, kind))
    }

    fn reads_flip_flops(&self) -> bool {
        self.spelling != Spelling::Strict
    }

    fn kinds_from<'b>(&'b self, begin: &'b [u8]) -> impl Iterator<Item = &'static str> + 'b {
        let words = GATES.into_iter().map(Kind::word).chain(self.reads_flip_flops().then_some(FLIP_FLOP));
        words.filter(|word| word.get(..begin.len()).is_some_and(|letters| self.is(begin, letters)))
    }

    fn no_kind(&self, word: Word) -> Stuck {
        let kinds: Vec<&str> = self.kinds_from(word.name).collect();
        let listed = match &kinds[..] {
            [before @ .., last] if !before.is_empty() => format!("{} or {last}", before.join(", ")),
            one => one.concat(),
        };
        let mut stuck = match word.name {
            [] => self.must("after `=`", &format!("{listed}{}", self.in_capitals())),
            _ => self.must(&format!("after {word}"), &format!("the rest of {listed}{}", self.in_capitals())),
        };
        let whole = word_at(self.text, word.at).letters();
        if SELECTOR.iter().any(|selector| whole.eq_ignore_ascii_case(selector)) {
            stuck.says += "; the notation has no name for a selector, and a circuit with selectors comes as records";
        }
        if !self.reads_flip_flops() && whole.eq_ignore_ascii_case(FLIP_FLOP) {
            stuck.says += "; flip-flops are read by unfold, dictionary --steps, faults and narrow alone";
        }
        stuck
    }

    /// From `(` to `)`: the names between them.
    fn brackets(&mut self, of: Word<'a>, brackets: Brackets) -> Read<Vec<Word<'a>>> {
        let (mut names, mut after) = (vec![], "after `(`");
        loop {
            self.at += 1;
            names.push(self.name(after, "a name")?);
            self.blanks();
            match self.ahead() {
                Some(b',') if brackets.go_on(names.len()) => after = "after `,`",
                Some(b')') if brackets.close(names.len()) => break,
                _ => return Err(self.no_bracket(of, brackets, names.len())),
            }
        }
        self.at += 1;
        Ok(names)
    }

    fn no_bracket(&self, of: Word, brackets: Brackets, count: usize) -> Stuck {
        let mut stuck = self.must(&format!("after {} {of}", brackets.called(count)), brackets.then(count));
        // a comma is in order after the first source
        if brackets == Brackets::TwoSources && self.ahead() == Some(b',') {
            stuck.says += "; `ullimaqsu narrow` rewrites gates of three and more sources";
        }
        stuck
    }

    /// A name, after blanks. Where there is none, what must follow is told after what stands before.
    fn name(&mut self, after: &str, what: &str) -> Read<Word<'a>> {
        self.blanks();
        let mut word = word_at(self.text, self.at);
        word.name = &word.name[..word.name.len().min(LONGEST_NAME)];
        self.at = word.end();
        if word.name.is_empty() {
            return Err(self.must(after, what));
        }
        if self.ahead().is_some_and(is_of_a_name) {
            let says = format!("{word} has {LONGEST_NAME} letters, digits or underscores, and a name has no more");
            return Err(Stuck { at: self.at, says });
        }
        Ok(word)
    }

    /// Whether a word is this keyword.
    fn is(&self, word: &[u8], keyword: &str) -> bool {
        match self.spelling {
            Spelling::Strict | Spelling::Clocked => word == keyword.as_bytes(),
            Spelling::Wide => word.eq_ignore_ascii_case(keyword.as_bytes()),
        }
    }

    /// Takes note of a keyword, if it should be spelled in another way.
    fn note(&mut self, word: Word<'a>, right: &'static str) {
        if word.name != right.as_bytes() {
            self.misspelled.push(Misspelled { word, right });
        }
    }

    /// What is asked of keywords, behind them.
    fn in_capitals(&self) -> &'static str {
        match self.spelling {
            Spelling::Strict | Spelling::Clocked => ", in capitals",
            Spelling::Wide => "",
        }
    }

    /// What must follow here, after what stands before.
    fn must(&self, after: &str, what: &str) -> Stuck {
        let found = match self.ahead() {
            None => "the text ends".to_string(),
            Some(b'\n') => "the line ends".to_string(),
            Some(b' ' | b'\t' | b'\r') => "is a blank".to_string(),
            Some(byte) if byte.is_ascii_graphic() => format!("is `{}`", char::from(byte)),
            Some(byte) => format!("is byte {byte}"),
        };
        Stuck { at: self.at, says: format!("{after} there must be {what}, and here {found}") }
    }
}

//! The bench notation, read by hand: a function for each form, which takes what belongs to it and stops at the first byte that can't go on.
use crate::circuit::Gate;

/// The most bytes that a text may have.
pub const MOST: usize = 32_768;

/// A name in a text, and its first byte.
#[derive(Clone, Copy, Debug, PartialEq, Eq)]
pub struct Word<'a> {
    pub at: usize,
    pub name: &'a [u8],
}

/// What a line of a text says.
#[derive(Clone, Copy, Debug, PartialEq, Eq)]
pub enum Statement<'a> {
    Input(Word<'a>),
    Output(Word<'a>),
    /// The name, and what makes its value.
    Equation(Word<'a>, Gate<Word<'a>>),
}

/// What was read, or the first byte that can't go on; the text's length where it ends early.
pub type Read<T> = Result<T, usize>;

struct Reader<'a> {
    text: &'a [u8],
    at: usize,
}

fn is_of_a_name(byte: u8) -> bool {
    byte.is_ascii_alphanumeric() || byte == b'_'
}

impl<'a> Reader<'a> {
    /// The byte that is not yet taken, if there is one.
    fn ahead(&self) -> Option<u8> {
        self.text.get(self.at).copied()
    }

    fn blanks(&mut self) {
        while let Some(b' ' | b'\t' | b'\r') = self.ahead() {
            self.at += 1;
        }
    }

    /// This sign, after blanks.
    fn sign(&mut self, sign: u8) -> Read<()> {
        self.blanks();
        if self.ahead() != Some(sign) {
            return Err(self.at);
        }
        self.at += 1;
        Ok(())
    }

    /// A name, after blanks.
    fn name(&mut self) -> Read<Word<'a>> {
        self.blanks();
        let rest = &self.text[self.at..];
        let len = rest.iter().take_while(|&&byte| is_of_a_name(byte)).count();
        if !(1..=16).contains(&len) {
            return Err(self.at + len.min(16));
        }
        let word = Word { at: self.at, name: &rest[..len] };
        self.at += len;
        Ok(word)
    }

    /// `(`, a name, `)`.
    fn argument(&mut self) -> Read<Word<'a>> {
        self.sign(b'(')?;
        let a = self.name()?;
        self.sign(b')')?;
        Ok(a)
    }

    /// `(`, two names with a comma between them, `)`.
    fn arguments(&mut self) -> Read<(Word<'a>, Word<'a>)> {
        self.sign(b'(')?;
        let a = self.name()?;
        self.sign(b',')?;
        let b = self.name()?;
        self.sign(b')')?;
        Ok((a, b))
    }

    /// The name of a kind, after blanks. No kind's name begins another's.
    fn kind(&mut self) -> Read<&'static str> {
        const KINDS: [&str; 8] = ["BUFF", "NOT", "AND", "NAND", "OR", "NOR", "XOR", "XNOR"];
        self.blanks();
        let mut left = KINDS.to_vec();
        for letter in 0.. {
            if let [kind] = left[..] {
                if kind.len() == letter {
                    return Ok(kind);
                }
            }
            left.retain(|kind| kind.as_bytes().get(letter).copied() == self.ahead());
            if left.is_empty() {
                break;
            }
            self.at += 1;
        }
        Err(self.at)
    }

    fn gate(&mut self) -> Read<Gate<Word<'a>>> {
        let kind = self.kind()?;
        if let "BUFF" | "NOT" = kind {
            let a = self.argument()?;
            return Ok(if kind == "NOT" { Gate::Not(a) } else { Gate::Buffer(a) });
        }
        let (a, b) = self.arguments()?;
        Ok(match kind {
            "AND" => Gate::And(a, b),
            "NAND" => Gate::Nand(a, b),
            "OR" => Gate::Or(a, b),
            "NOR" => Gate::Nor(a, b),
            "XOR" => Gate::Xor(a, b),
            _ => Gate::Xnor(a, b),
        })
    }

    /// What follows the first word decides.
    fn statement(&mut self) -> Read<Statement<'a>> {
        let first = self.name()?;
        self.blanks();
        Ok(match (first.name, self.ahead()) {
            (b"INPUT", Some(b'(')) => Statement::Input(self.argument()?),
            (b"OUTPUT", Some(b'(')) => Statement::Output(self.argument()?),
            _ => {
                self.sign(b'=')?;
                Statement::Equation(first, self.gate()?)
            }
        })
    }

    /// A line up to its end: a statement or none, a comment or none.
    fn line(&mut self) -> Read<Option<Statement<'a>>> {
        self.blanks();
        let statement = match self.ahead() {
            None | Some(b'\n' | b'#') => None,
            _ => Some(self.statement()?),
        };
        self.blanks();
        if self.ahead() == Some(b'#') {
            let rest = &self.text[self.at..];
            self.at += rest.iter().take_while(|&&byte| byte != b'\n').count();
        }
        match self.ahead() {
            None | Some(b'\n') => Ok(statement),
            _ => Err(self.at),
        }
    }
}

/// The statements of a text, in order.
pub fn parse(text: &[u8]) -> Read<Vec<Statement<'_>>> {
    let mut reader = Reader { text: &text[..text.len().min(MOST)], at: 0 };
    let mut statements = vec![];
    loop {
        statements.extend(reader.line()?);
        if reader.ahead().is_none() {
            break;
        }
        reader.at += 1; // the line feed
    }
    if text.len() > MOST {
        return Err(MOST);
    }
    Ok(statements)
}

//! What a text with gates of any number of sources says, read and evaluated without the command.
use std::collections::HashMap;

/// 64 values: the bits where they are 1, and where they are 0; neither is X.
pub type Lanes = (u64, u64);

pub struct Equation {
    pub name: String,
    pub kind: String,
    pub sources: Vec<String>,
}

/// A text by its names. It must be right; keywords may be small.
#[derive(Default)]
pub struct Equations {
    pub inputs: Vec<String>,
    pub outputs: Vec<String>,
    pub gates: Vec<Equation>,
}

/// The words of a line, without its comment.
pub fn words(line: &[u8]) -> Vec<String> {
    let statement = line.split(|&byte| byte == b'#').next().unwrap_or_default();
    let words = statement.split(|&byte| !byte.is_ascii_alphanumeric() && byte != b'_').filter(|word| !word.is_empty());
    words.map(|word| String::from_utf8(word.to_vec()).expect("letters")).collect()
}

impl Equations {
    pub fn read(text: &[u8]) -> Equations {
        let mut equations = Equations::default();
        for line in text.split(|&byte| byte == b'\n') {
            match &words(line)[..] {
                [] | [_] => (),
                [keyword, name] if keyword.to_uppercase() == "INPUT" => equations.inputs.push(name.clone()),
                [_, name] => equations.outputs.push(name.clone()),
                [name, kind, sources @ ..] => {
                    equations.gates.push(Equation { name: name.clone(), kind: kind.to_uppercase(), sources: sources.to_vec() })
                }
            }
        }
        equations
    }

    /// The values of all names, where these are the inputs'.
    pub fn values(&self, inputs: &[Lanes]) -> HashMap<&str, Lanes> {
        let mut values: HashMap<&str, Lanes> = self.inputs.iter().map(String::as_str).zip(inputs.iter().copied()).collect();
        let mut waiting: Vec<&Equation> = self.gates.iter().collect();
        while !waiting.is_empty() {
            let before = waiting.len();
            waiting.retain(|gate| {
                let sources: Option<Vec<Lanes>> = gate.sources.iter().map(|source| values.get(source.as_str()).copied()).collect();
                sources.map(|sources| values.insert(&gate.name, value(&gate.kind, &sources))).is_none()
            });
            assert!(waiting.len() < before, "a loop, or a name that is defined nowhere");
        }
        values
    }
}

/// The value of a gate, of all of its sources at once.
fn value(kind: &str, sources: &[Lanes]) -> Lanes {
    let all = |lane: fn(&Lanes) -> u64| sources.iter().map(lane).fold(u64::MAX, |all, lanes| all & lanes);
    let any = |lane: fn(&Lanes) -> u64| sources.iter().map(lane).fold(0, |any, lanes| any | lanes);
    let odd = sources.iter().fold(0, |odd, (ones, _)| odd ^ ones);
    let known = all(|(ones, zeros)| ones | zeros);
    let (and, or, xor) =
        ((all(|lanes| lanes.0), any(|lanes| lanes.1)), (any(|lanes| lanes.0), all(|lanes| lanes.1)), (odd & known, !odd & known));
    let not = |(ones, zeros): Lanes| (zeros, ones);
    match kind {
        "BUF" | "BUFF" => sources[0],
        "NOT" => not(sources[0]),
        "AND" => and,
        "NAND" => not(and),
        "OR" => or,
        "NOR" => not(or),
        "XOR" => xor,
        "XNOR" => not(xor),
        other => panic!("{other} is no kind"),
    }
}

//! `ullimaqsu narrow`: gates of two sources that say the same, and everything else as it was.
mod abc;
mod equations;
#[path = "../harness/mod.rs"]
mod harness;
mod held;
mod refused;
mod wide;

use cases::{drawn, texts, Random};
use equations::Equations;
use harness::{root, ullimaqsu, Directory, COMMAND};
use held::held;
use std::fs;
use std::process::Command;
use ullimaqsu::LARGEST_CIRCUIT;

/// What is printed for a text: bytes of any sort, as comments may have them.
fn narrow(directory: &Directory, text: &[u8]) -> Result<Vec<u8>, String> {
    let file = directory.write("wide.bench", text);
    let output = Command::new(COMMAND).arg("narrow").arg(&file).output().expect("it starts");
    let said = String::from_utf8(output.stderr).expect("text");
    match output.status.code() {
        Some(0) => {
            assert_eq!(said, "");
            Ok(output.stdout)
        }
        status => {
            assert_eq!((status, output.stdout.len(), said.lines().count()), (Some(1), 0, 1), "{said}");
            let words = said.strip_prefix(&format!("ullimaqsu: {}: ", file.display())).expect("the file");
            Err(words.trim_end().to_string())
        }
    }
}

fn narrowed(directory: &Directory, text: &[u8]) -> Vec<u8> {
    narrow(directory, text).unwrap_or_else(|said| panic!("{said}\n{}", String::from_utf8_lossy(text)))
}

fn accepted(text: &[u8]) -> bool {
    ullimaqsu::bench(text, &mut [0; LARGEST_CIRCUIT]).is_ok()
}

#[test]
fn trees() {
    let directory = Directory::new("trees");
    let rows = [
        ("y=AND(a,b,c)", "y_1 = AND(a, b)\ny=AND(y_1, c)"),
        ("y = NAND(a, b, c, d)", "y_1 = AND(a, b)\ny_2 = AND(c, d)\ny = NAND(y_1, y_2)"),
        (" y = OR ( a , b , c ) # d", "y_1 = OR(a, b)\n y = OR ( y_1, c ) # d"),
        ("y = NOR(d, c, b, a, a)", "y_1 = OR(d, c)\ny_2 = OR(y_1, b)\ny_3 = OR(a, a)\ny = NOR(y_2, y_3)"),
        ("y = XOR(a, b, c)", "y_1 = XOR(a, b)\ny = XOR(y_1, c)"),
        ("y = XNOR(a, b, c, d)", "y_1 = XOR(a, b)\ny_2 = XOR(c, d)\ny = XNOR(y_1, y_2)"),
        ("y = xnor(a, b, c)\r", "y_1 = XOR(a, b)\r\ny = XNOR(y_1, c)\r"),
        ("y = buf(a)", "y = BUFF(a)"),
        ("y = nand(a, b)", "y = NAND(a, b)"),
        ("y = AND(a, b, c)\ny_1 = DFF(y)", "y_2 = AND(a, b)\ny = AND(y_2, c)\ny_1 = DFF(y)"),
        ("y_1 = dff(y)\ny = AND(a, b, y_1)", "y_1 = DFF(y)\ny_2 = AND(a, b)\ny = AND(y_2, y_1)"),
        ("y = AND(a, b, y_2)\n\ty_2\t= DFF ( y )\r", "y_1 = AND(a, b)\ny = AND(y_1, y_2)\n\ty_2\t= DFF ( y )\r"),
    ];
    for (wide, right) in rows {
        let text = |statement: &str| format!("INPUT(a)\nINPUT(b)\nINPUT(c)\nINPUT(d)\nOUTPUT(y)\n{statement}\n").into_bytes();
        assert_eq!(String::from_utf8(narrowed(&directory, &text(wide))).expect("text"), String::from_utf8(text(right)).expect("text"));
    }
}

/// A last line that has no end, and names that are taken or have 16 letters.
#[test]
fn names_and_ends() {
    let directory = Directory::new("names");
    let text = b"INPUT(a)\r\nINPUT(y_1)\nOUTPUT(y)\ny = AND(a, a, y_3, y_1, a)\ny_3 = NOT(a)\nabcdefghijklmnop = OR(a, a, a)\nabcdefghijklmn_1 = OR(a, a, a)";
    let right = b"INPUT(a)\r\nINPUT(y_1)\nOUTPUT(y)\ny_2 = AND(a, a)\ny_4 = AND(y_2, y_3)\ny_5 = AND(y_1, a)\ny = AND(y_4, y_5)\ny_3 = NOT(a)\n\
        abcdefghijklmn_2 = OR(a, a)\nabcdefghijklmnop = OR(abcdefghijklmn_2, a)\nabcdefghijklmn_3 = OR(a, a)\r\nabcdefghijklmn_1 = OR(abcdefghijklmn_3, a)";
    assert_eq!(String::from_utf8(narrowed(&directory, text)).expect("text"), String::from_utf8(right.to_vec()).expect("text"));
}

#[test]
fn drawn_texts() {
    let directory = Directory::new("drawn");
    let random = &mut Random::new(1);
    let (mut made, mut longest) = (0, 0);
    for text in drawn(2, 400, wide::text) {
        let narrow = narrowed(&directory, &text);
        held(&text, &narrow, random)
            .unwrap_or_else(|said| panic!("{said}\n{}\n{}", String::from_utf8_lossy(&text), String::from_utf8_lossy(&narrow)));
        assert!(accepted(&narrow) && !accepted(&text));
        let (before, after) = (Equations::read(&text), Equations::read(&narrow));
        made += after.gates.len() - before.gates.len();
        longest += after.gates.iter().filter(|gate| gate.name.len() == 16).count();
        // what is narrow stays
        assert_eq!(narrowed(&directory, &narrow), narrow);
    }
    assert!(made > 5000 && longest > 1000, "{made} {longest}");
    println!("narrow: 400 texts, {made} gates made");
}

/// Flip-flops stay as they are: a text with flip-flops of themselves for some of its inputs becomes what it becomes with the inputs.
#[test]
fn flip_flops() {
    let directory = Directory::new("flip-flops");
    let (random, mut count) = (&mut Random::new(8), 0);
    for statements in drawn(9, 60, |random: &mut Random| wide::plain(random, &wide::MANY, 8)) {
        let inputs: Vec<String> = statements.iter().filter(|one| one[0] == "INPUT").map(|one| one[2].clone()).collect();
        let chosen: Vec<&String> = inputs.iter().filter(|_| random.once_in(2)).collect();
        let held = |text: &[u8]| {
            let put = |text: String, name: &&String| text.replace(&format!("INPUT({name})\n"), &format!("{name}=DFF({name})\n"));
            chosen.iter().fold(String::from_utf8(text.to_vec()).expect("text"), put).into_bytes()
        };
        let text = texts::dense(&statements);
        assert_eq!(narrowed(&directory, &held(&text)), held(&narrowed(&directory, &text)));
        count += chosen.len();
    }
    assert!(count > 60, "{count}");
}

/// What is asked of a narrow text is not there in these, which are wrong in one way each.
#[test]
fn wrong_texts_are_seen() {
    let wide = "INPUT(a)\nINPUT(b)\nINPUT(c)\nINPUT(d)\nOUTPUT(y)\ny = NAND(a, b, c, d) # e\nz = NOT(y)\n";
    let right = "INPUT(a)\nINPUT(b)\nINPUT(c)\nINPUT(d)\nOUTPUT(y)\ny_1 = AND(a, b)\ny_2 = AND(c, d)\ny = NAND(y_1, y_2) # e\nz = NOT(y)\n";
    let random = &mut Random::new(3);
    assert_eq!(held(wide.as_bytes(), right.as_bytes(), random), Ok(()));
    let wrong = [
        ("y_1 = AND", "y_1 = NAND"),
        ("y_2 = AND", "y_2 = OR"),
        ("y = NAND", "y = AND"),
        ("(c, d)", "(c, c)"),
        ("(y_1, y_2)", "(y_1, y_1)"),
        ("(y_1, y_2)", "(y_1, c, d)"),
        ("y_2", "y_1"),
        ("y_2", "y_2345678901234567"),
        ("y_2", "z"),
        (" # e", ""),
        ("d)\ny", "d)\r\ny"),
        ("z = ", "z="),
        ("OUTPUT(y)\n", ""),
        ("INPUT(a)\nINPUT(b)", "INPUT(b)\nINPUT(a)"),
        ("z = NOT(y)\n", "z = NOT(y)"),
        ("z = NOT(y)\n", "z = NOT(y)\n\n"),
    ];
    for (from, to) in wrong {
        let text = right.replace(from, to);
        assert_ne!(text, right, "{from}");
        assert!(held(wide.as_bytes(), text.as_bytes(), random).is_err(), "not seen: {to} for {from}");
    }
}

/// A text that the library reads stays byte for byte. One whose names or loops or records are wrong is refused in the words of `bench`.
#[test]
fn texts_without_wide_gates() {
    let directory = Directory::new("narrow already");
    let (mut same, mut refused) = (0, 0);
    let all = drawn(4, 60, texts::small).chain(drawn(5, 60, texts::damaged)).chain(drawn(6, 80, texts::misnamed)).chain(drawn(
        7,
        40,
        texts::cyclic,
    ));
    for text in all.chain([vec![], b"INPUT(a)".to_vec(), texts::chain(2049, false)]) {
        let said = narrow(&directory, &text);
        let (_, _, words) = ullimaqsu(&[std::path::Path::new("bench"), &directory.0.join("wide.bench"), &directory.0.join("out")]);
        match ullimaqsu::bench(&text, &mut [0; LARGEST_CIRCUIT]) {
            Ok(_) => {
                assert_eq!(said, Ok(text));
                same += 1;
            }
            Err(refusal) if refusal.number == 14 || said.as_ref().is_err_and(|said| said.contains(" lines, and ")) => (),
            Err(_) => {
                assert!(words.trim_end().ends_with(&format!(": {}", said.expect_err("refused"))), "{words}");
                refused += 1;
            }
        }
    }
    assert!(same > 80 && refused > 80, "{same} {refused}");
}

/// The example compares its numbers, before and after.
#[test]
fn the_example() {
    let directory = Directory::new("example");
    let text = fs::read(root().join("examples/wide.bench")).expect("an example");
    assert!(!accepted(&text));
    let narrow = narrowed(&directory, &text);
    assert!(accepted(&narrow));
    for (text, gates) in [(&text, 12), (&narrow, 17)] {
        let equations = Equations::read(text);
        assert_eq!(equations.gates.len(), gates);
        for (a, b) in (0..64u64).map(|both| (both % 8, both / 8)) {
            let bit = |name: &String| {
                let number = if name.starts_with('a') { a } else { b };
                let bit = number >> name[1..].parse::<u32>().expect("a bit") & 1;
                (bit, 1 - bit)
            };
            let values = equations.values(&equations.inputs.iter().map(bit).collect::<Vec<_>>());
            let is = |name: &str| values[name].0 & 1 == 1;
            assert_eq!((is("greater"), is("equal"), is("less")), (a > b, a == b, a < b), "{a} {b}");
        }
    }
}

//! Cases of the entries that read a text in the bench notation: texts of every sort, and what can be wrong with one.
use crate::harness::{compare, first_defect_is_told, Case, Defect};
use cases::{damage, drawn, texts, Random};

/// What such an entry is given: a text, a buffer of some sort of elements, and an answer area.
pub trait TextCase: Case {
    type Element: Clone + From<u8>;

    /// What its comparisons are called.
    const NAME: &'static str;

    /// Lends a buffer and an area that are full of junk, of the right sizes.
    fn lend(random: &mut Random, text: Vec<u8>) -> Self;
    fn text(&mut self) -> &mut Vec<u8>;
    fn buffer(&mut self) -> &mut Vec<Self::Element>;
    fn answer(&mut self) -> &mut Vec<u8>;
}

/// The texts, each with a buffer and an area; now and then one of them has another size.
fn with_buffers<C: TextCase>(texts: impl Iterator<Item = Vec<u8>>) -> impl Iterator<Item = C> {
    let mut random = Random::new(0);
    texts.map(move |text| {
        let mut case = C::lend(&mut random, text);
        let room = case.buffer().len();
        match random.below(20) {
            0 => case.answer().resize(random.pick(&[0, 31, 33, 64]), 7),
            1 => case.buffer().resize(damage::size(&mut random, room), 7.into()),
            2..=6 => case.buffer().truncate(random.below(40)), // most refusals come before the size is looked at
            _ => (),
        }
        case
    })
}

/// Every form that a line has, names of 1 and 16 letters, keywords as names, blanks, CR LF, comments, and no final line feed.
const FORMS: &[u8] =
    b"INPUT(a)\r\n# OUTPUT(a)\n\tINPUT ( INPUT )\nOUTPUT(OUTPUT)#c\n\ny=BUFF(a)\nx = NOT ( y ) \nabcdefghijklmnop=AND(x,y)\n\
    n0=NAND(a,n1)\nn1=OR(INPUT,a)\nn2=NOR(n0,abcdefghijklmnop)\nOUTPUT = XOR(n2, n1)\nz\t=\rXNOR(OUTPUT,OUTPUT)\nOUTPUT(z)\nOUTPUT(z)";

/// Damage at every byte of a text: other bytes of every sort in its place, none at all, and the end there.
fn every_byte(text: &'static [u8]) -> impl Iterator<Item = Vec<u8>> {
    let parts = (0..text.len()).map(|place| (&text[..place], &text[place + 1..]));
    parts.flat_map(|(before, behind)| {
        let changed = texts::BYTES.iter().map(move |&byte| [before, &[byte], behind].concat());
        changed.chain([[before, behind].concat(), before.to_vec()])
    })
}

/// The sizes at which something changes: of the text, of the circuit, of its inputs and outputs.
fn boundaries() -> Vec<Vec<u8>> {
    let mut random = Random::new(3);
    let mut all = vec![vec![], b"OUTPUT(a)\nINPUT(a)".to_vec(), texts::crossed(1), texts::crossed(1023), texts::crossed(1400)];
    for lines in [1, 2, 3, 63, 64, 65, 66, 2047, 2048, 2049, 2100] {
        all.extend([false, true].map(|backwards| texts::chain(lines, backwards)));
        for inputs in [1, 2, 63, 64, 65, 66].into_iter().filter(|&inputs| inputs <= lines) {
            let full = texts::largest(&mut random, lines, inputs);
            let without_outputs = full.split_inclusive(|&byte| byte == b'\n').filter(|line| !line.starts_with(b"OUTPUT")).flatten();
            all.push(without_outputs.copied().collect());
            all.push([&full[..], b"#"].concat());
            all.push([&full[..full.len() - 1], b"\n"].concat());
            all.push(full);
        }
    }
    for len in [texts::MOST - 1, texts::MOST, texts::MOST + 1, 2 * texts::MOST] {
        for (before, filler) in
            [(&b"INPUT(a)\nOUTPUT(a)"[..], b' '), (b"INPUT(a)\nOUTPUT(a)#", b'('), (b"INPUT(a)\nOUTPUT(a", b'\t'), (b"", b'\n')]
        {
            let mut text = before.to_vec();
            text.resize(len, filler);
            all.push(text);
        }
    }
    all
}

/// The numbers that are seen where the entry and the second program agree on these texts.
fn seen<C: TextCase>(sort: &str, texts: impl Iterator<Item = Vec<u8>>) -> Vec<u32> {
    compare(&format!("{}, {sort}", C::NAME), with_buffers::<C>(texts)).seen()
}

pub fn compare_sound<C: TextCase>() {
    assert_eq!(seen::<C>("sound", drawn(1, 10_000, texts::small)), [0, 10]);
}

pub fn compare_damaged<C: TextCase>() {
    assert_eq!(seen::<C>("damaged", drawn(2, 30_000, texts::damaged)), [0, 1, 5, 10, 14, 15]);
    assert_eq!(seen::<C>("other names", drawn(4, 10_000, texts::misnamed)), [0, 1, 5, 10, 15, 16]);
    assert_eq!(seen::<C>("cycles", drawn(5, 1_000, texts::cyclic)), [10, 16]);
    assert_eq!(seen::<C>("in no order", drawn(6, 20_000, texts::soup)), [1, 5, 10, 14, 15]);
}

pub fn compare_every_byte_and_all_boundaries<C: TextCase>() {
    assert_eq!(seen::<C>("every byte", every_byte(FORMS)), [0, 1, 5, 10, 14, 15, 16]);
    assert_eq!(seen::<C>("boundaries", boundaries().into_iter()), [0, 1, 4, 5, 10, 14]);
    assert_eq!(seen::<C>("near the last byte", drawn(7, 300, texts::near_the_end)), [0, 10, 14]);
}

/// Of two things that are wrong, the one that is looked for first is told.
pub fn compare_two_defects_at_once<C: TextCase>() {
    let defects: [Defect<C>; 8] = [
        (10, |case| case.answer().push(0)),
        (14, |case| case.text().push(b'(')),
        (15, |case| case.text().extend(b"OUTPUT(nobody)\n")),
        (16, |case| case.text().extend(b"again = NOT(again)\n")),
        (1, |case| (0..2048).for_each(|line| case.text().extend(format!("g{line}=NOT(a)\n").bytes()))),
        (4, |case| (0..64).for_each(|line| case.text().extend(format!("INPUT(i{line})\n").bytes()))),
        (5, |case| case.text()[..9].copy_from_slice(b"g=BUFF(a)")),
        (10, |case| case.buffer().push(7.into())),
    ];
    first_defect_is_told(&C::lend(&mut Random::new(8), b"OUTPUT(y)\nINPUT(a)\ny = NOT(a)\n".to_vec()), &defects);
}

/// Some of each sort, for wrong programs to be seen on.
pub fn some_of_each_sort<C: TextCase>() -> Vec<C> {
    let drawn = drawn(9, 1_500, texts::small)
        .chain(drawn(10, 1_500, texts::misnamed))
        .chain(drawn(11, 1_500, texts::damaged))
        .chain(drawn(12, 200, texts::cyclic));
    let random = &mut Random::new(13);
    let large = [texts::largest(random, 2049, 65), [&texts::largest(random, 2048, 64)[..], b"#"].concat()];
    with_buffers(drawn.chain(every_byte(FORMS).step_by(3)).chain(large)).collect()
}

/// Sound texts: so many of a few lines, and then large ones.
pub fn sound_texts(seed: u64, count: usize) -> impl Iterator<Item = Vec<u8>> {
    let large = [texts::chain(2048, true), texts::crossed(1023), texts::largest(&mut Random::new(seed), 2048, 64)];
    drawn(seed, count, texts::small).chain(large)
}

//! Slices of every type go to C and back, over an entry that the bridge has for this test alone; and what is wrong is seen.
use super::parameter::Element;
use super::*;
use std::panic::{catch_unwind, AssertUnwindSafe};

/// The parameters of `bridge_divide`, which divides the elements of each slice, and as many on either side of it as `beyond` says.
struct Division {
    by: u64,
    beyond: [u8; 5],
    u8: Vec<u8>,
    i32: Vec<i32>,
    u32: Vec<u32>,
    u64: Vec<u64>,
    f64: Vec<f64>,
}

/// A slice that is lent, or only read.
fn slice<T: Element>(slice: &mut [T], lent: bool) -> Box<dyn Parameter + '_> {
    if lent {
        Box::new(slice)
    } else {
        Box::new(&*slice)
    }
}

impl Division {
    /// Elements that would have another part in another type or in another order of bytes.
    fn new(by: u64) -> Division {
        Division {
            by,
            beyond: [0; 5],
            u8: vec![0, 1, 2, 127, 128, 253, 255],
            i32: vec![0, -1, -301, 0x0102_0304, i32::MIN, i32::MAX],
            u32: vec![0, 1, 0xffff_fffd, 0x0102_0304, 1 << 31],
            u64: vec![u64::MAX, 0x0102_0304_0506_0708, 1 << 63],
            f64: vec![0.0, -0.0, 1.0, -0.3, 1e300, 5e-324, f64::INFINITY, f64::from_bits(0x7ff8_0000_0000_1234)],
        }
    }

    /// The bits of each element, when it is divided.
    fn divided(&self, by: u64) -> Vec<u64> {
        let u8 = self.u8.iter().map(|x| u64::from(x / by as u8));
        let i32 = self.i32.iter().map(|x| (x / by as i32) as u64);
        let u32 = self.u32.iter().map(|x| u64::from(x / by as u32));
        let u64 = self.u64.iter().map(|x| x / by);
        let f64 = self.f64.iter().map(|x| (x / by as f64).to_bits());
        u8.chain(i32).chain(u32).chain(u64).chain(f64).collect()
    }

    /// Calls the entry, with one of the five slices only read.
    fn enter(&mut self, read: Option<usize>) -> u32 {
        let Division { by, beyond, u8, i32, u32, u64, f64 } = self;
        let lent = |place| read != Some(place);
        let mut slices = [slice(u8, lent(0)), slice(i32, lent(1)), slice(u32, lent(2)), slice(u64, lent(3)), slice(f64, lent(4))];
        let mut beyond = &beyond[..];
        let mut parameters: Vec<&mut dyn Parameter> = vec![by, &mut beyond];
        parameters.extend(slices.iter_mut().map(|slice| &mut **slice as &mut dyn Parameter));
        run("bridge_divide", parameters).expect("the bridge answers")
    }
}

/// What an entry returns, over a bridge of its own.
fn run(entry: &'static str, parameters: Vec<&mut dyn Parameter>) -> io::Result<u32> {
    Bridge::start().run(&mut [(entry, parameters)]).map(|returned| returned[0])
}

/// What is said where something is seen to be wrong.
fn complaint(of: impl FnOnce() -> u32) -> String {
    let complaint = catch_unwind(AssertUnwindSafe(of)).expect_err("something is wrong");
    complaint.downcast_ref::<String>().cloned().or(complaint.downcast_ref::<&str>().map(ToString::to_string)).expect("a text")
}

#[test]
fn slices_of_every_type() {
    for by in [1, 2, 3, 100] {
        let mut division = Division::new(by);
        let divided = division.divided(by);
        assert_eq!(division.enter(None), 0);
        assert_eq!((division.divided(1), division.by, division.beyond), (divided, by, [0; 5]));
    }
}

#[test]
fn slices_of_no_elements() {
    let (u8, i32, u32, u64, f64) = (vec![], vec![], vec![], vec![], vec![]);
    assert_eq!(Division { u8, i32, u32, u64, f64, ..Division::new(2) }.enter(None), 0);
}

#[test]
fn what_is_written_outside_of_a_slice() {
    for place in 0..5 {
        let mut division = Division::new(2);
        division.beyond[place] = 1;
        assert!(complaint(|| division.enter(None)).contains("nothing is written before or behind a slice"), "slice {place}");
    }
}

#[test]
fn what_is_written_though_it_is_only_read() {
    for place in 0..5 {
        assert_eq!(Division::new(1).enter(Some(place)), 0, "slice {place}");
        assert!(complaint(|| Division::new(2).enter(Some(place))).contains("what is only read stays"), "slice {place}");
    }
}

/// An entry that the bridge does not have, or parameters of other types, end it.
#[test]
fn calls_that_are_not_understood() {
    let check = |entry, circuit: &mut dyn Parameter| {
        let mut area = [0u8; 32];
        run(entry, vec![circuit, &mut &mut area[..]]).ok()
    };
    assert_eq!(check("ullimaqsu_check", &mut &[0u8; 8][..]), Some(5));
    assert_eq!(check("ullimaqsu_chec", &mut &[0u8; 8][..]), None);
    assert_eq!(check("ullimaqsu_check", &mut &[0i32; 2][..]), None);
    assert_eq!(check("ullimaqsu_check", &mut 8), None);
    assert_eq!(run("ullimaqsu_check", vec![&mut &[0u8; 8][..]]).ok(), None);
}

/// A batch has calls of several entries, and many calls take several batches.
#[test]
fn calls_one_after_the_other() {
    let mut areas = vec![[9; 32]; 10_000];
    let circuit = [0, 1, 0, 0, 0, 0, 0, 0].repeat(64);
    let both = areas.iter_mut().enumerate().map(|(place, answer)| match place % 2 {
        0 => Call::Check { circuit: &circuit[..8 * (place % 64)], answer },
        _ => Call::Compact { fault_count: 1, pattern_count: 0, table: &[], marks: &mut [], answer },
    });
    let mut calls: Vec<_> = both.collect();
    let returned = enter_all(&mut calls);
    for (place, (returned, area)) in returned.into_iter().zip(areas).enumerate() {
        let lines = (place % 64) as u8;
        let (number, first) = if place % 2 == 1 { (12, 0) } else { (u32::from(lines == 0), lines) };
        assert_eq!((returned, area[0], area[24..] == [0; 8]), (number, first, true), "call {place}");
    }
    let mut area = [9; 31];
    assert_eq!((enter(&mut Call::Check { circuit: &circuit, answer: &mut area }), area), (10, [9; 31]));
}

/// Bits that no arithmetic keeps stay, over an entry that refuses what it is given: those of a NaN that signals too.
#[test]
fn bits_of_what_is_not_a_number() {
    let infinity = 0x7ff << 52;
    let bits =
        [infinity | 1, infinity | 1 << 63 | 1, infinity | 0x7_ffff_ffff_ffff, infinity | 1 << 51 | 0x1234, u64::MAX, infinity, 1 << 63, 1];
    let ([mut ones, mut zeros], mut area) = ([bits.map(f64::from_bits); 2], [9; 32]);
    zeros.reverse();
    let mut call = Call::Control { circuit: &[], ones: &mut ones, zeros: &mut zeros, answer: &mut area };
    assert_eq!((enter(&mut call), area), (1, [0; 32]));
    zeros.reverse();
    assert_eq!([ones, zeros].map(|chances| chances.map(f64::to_bits)), [bits; 2]);
}

//! Calls the library for many cases at once, and holds what it does to what another program says: the number returned, every byte of the
//! answer area and every element of lent memory.
mod parameters;

use cases::{Sort, Tally};
pub use parameters::*;
use second::entries::Seen;
use std::time::Instant;
use ullimaqsu::raw::enter_all;

/// What an entry is given, and what is said of it.
pub trait Case: Parameters {
    /// What the second program says.
    fn second(&self) -> Seen;

    /// What is counted: the number returned, unless there is more to tell.
    fn counted(seen: &Seen) -> u32 {
        seen.returned
    }

    /// What it shows, as what its selectors do, where it is accepted and this is what it leaves.
    fn sorts(&self, _seen: &mut Seen) -> Vec<Sort> {
        vec![]
    }

    /// What else is asked of what the library does with some cases: nothing, unless there is more to compare with.
    fn hold_more(_cases: &[Self], _library: &[Seen]) {}
}

/// What a caller sees of the memory of a call.
fn seen<C: Parameters>(returned: u32, memory: &C::Memory) -> Seen {
    let mut lent = C::lent(memory);
    let mut answer = lent.pop().expect("the answer area is lent last");
    Seen { returned, answer: std::mem::take(answer.u8()), lent }
}

/// What the library does.
pub fn library<C: Parameters>(cases: &[C]) -> Vec<Seen> {
    let mut memories: Vec<_> = cases.iter().map(C::memory).collect();
    let returned = enter_all(&mut memories.iter_mut().map(C::call).collect::<Vec<_>>());
    let seen_of = |((case, memory), returned): ((&C, &C::Memory), _)| {
        assert_eq!(C::read(memory), C::read(&case.memory()), "what is only read stays");
        seen::<C>(returned, memory)
    };
    cases.iter().zip(&memories).zip(returned).map(seen_of).collect()
}

/// The first case, if any, in which the library and another program do not agree.
pub fn first_difference<C: Case>(cases: &[C], library: &[Seen], other: &[Seen]) -> Option<String> {
    assert_eq!((library.len(), other.len()), (cases.len(), cases.len()));
    let differs = (0..cases.len()).find(|&k| library[k] != other[k])?;
    Some(format!("{:?}\nlibrary: {:?}\n  other: {:?}", cases[differs], library[differs], other[differs]))
}

/// Compares the library with the second program, and counts what was seen.
pub fn compare<C: Case>(name: &str, mut cases: impl Iterator<Item = C>) -> Tally {
    let (mut tally, began) = (Tally::default(), Instant::now());
    loop {
        let some: Vec<_> = cases.by_ref().take(1000).collect();
        if some.is_empty() {
            break;
        }
        let (library, mut said) = (library(&some), some.iter().map(C::second).collect::<Vec<_>>());
        if let Some(difference) = first_difference(&some, &library, &said) {
            panic!("{name}: {difference}");
        }
        C::hold_more(&some, &library);
        for (case, seen) in some.iter().zip(&mut said) {
            tally.count(C::counted(seen));
            if seen.returned == 0 {
                tally.count_sorts(case.sorts(seen));
            }
        }
    }
    println!("{name}: {tally}, {:.1} s", began.elapsed().as_secs_f64());
    tally
}

/// Something that can be wrong with a case, and the number of its refusal.
pub type Defect<C> = (u32, fn(&mut C));

/// Of two defects, the one that is earlier in this list is told, and nothing that was lent is written.
pub fn first_defect_is_told<C: Case>(sound: &C, defects: &[Defect<C>]) {
    assert_eq!(library(std::slice::from_ref(sound))[0].returned, 0);
    for (order, (number, defect)) in defects.iter().enumerate() {
        let nothing: Defect<C> = (0, |_| ());
        for (_, later) in defects[order + 1..].iter().chain([&nothing]) {
            let mut case = sound.clone();
            later(&mut case);
            defect(&mut case);
            let seen = library(std::slice::from_ref(&case)).remove(0);
            assert_eq!(seen, case.second(), "{case:?}");
            assert_eq!(seen.returned, *number, "{case:?}");
            assert_eq!(seen.lent, self::seen::<C>(0, &case.memory()).lent, "{case:?}");
        }
    }
}

/// The comparison tells each of these programs, wrong in one way each, from the library.
pub fn wrong_programs_are_seen<C: Case, P: Fn(&C) -> Seen>(cases: &[C], wrong: impl IntoIterator<Item = (&'static str, P)>) {
    let library = library(cases);
    let right: Vec<_> = cases.iter().map(C::second).collect();
    assert_eq!(first_difference(cases, &library, &right), None);
    for (name, program) in wrong {
        let said: Vec<_> = cases.iter().map(program).collect();
        assert!(first_difference(cases, &library, &said).is_some(), "not seen: a program that {name}");
    }
}

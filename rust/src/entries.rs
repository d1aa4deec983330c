//! The entries, a row each: all that this package knows of how they are called.

/// Gives a macro the rows of the table: the name of a call, the entry that it calls, and the parameters as `include/ullimaqsu.h` declares
/// them, where `&[T]` and `&mut [T]` stand for a pointer and a length. [`raw::Call`](crate::raw::Call), the calls into the archive and over
/// the bridge, and the cases of the tests are made of it. The bridge, `c/serve.c`, has a row for each entry too.
#[macro_export]
macro_rules! entries {
    ($each:ident) => {
        $each! {
            Check = ullimaqsu_check(circuit: &[u8], answer: &mut [u8]);
            Dictionary = ullimaqsu_dictionary(
                circuit: &[u8], faults: &[u8], patterns: &[u8], table: &mut [u8], work: &mut [u8], answer: &mut [u8]
            );
            DictionaryLanes = ullimaqsu_dictionary_lanes(
                circuit: &[u8], faults: &[u8], patterns: &[u8], table: &mut [u8], work: &mut [u64], answer: &mut [u8]
            );
            Unfold = ullimaqsu_unfold(
                circuit: &[u8], states: &[u8], steps: u64, unfolded: &mut [u8], answer: &mut [u8]
            );
            UnfoldDictionary = ullimaqsu_unfold_dictionary(
                circuit: &[u8], states: &[u8], steps: u64, faults: &[u8], patterns: &[u8], table: &mut [u8], work: &mut [u8],
                answer: &mut [u8]
            );
            Compact = ullimaqsu_compact(
                fault_count: u64, pattern_count: u64, table: &[u8], marks: &mut [u8], answer: &mut [u8]
            );
            Audit = ullimaqsu_audit(fault_count: u64, pattern_count: u64, table: &[u8], marks: &[u8], answer: &mut [u8]);
            SuspectsOpen = ullimaqsu_suspects_open(
                fault_count: u64, pattern_count: u64, table: &[u8], state: &mut [u8], answer: &mut [u8]
            );
            SuspectsReport = ullimaqsu_suspects_report(
                fault_count: u64, pattern_count: u64, table: &[u8], pattern: u64, failed: u64, state: &mut [u8], answer: &mut [u8]
            );
            SuspectsMarks = ullimaqsu_suspects_marks(state: &[u8], marks: &mut [u8], answer: &mut [u8]);
            Search = ullimaqsu_search(
                circuit: &[u8], fault: &[u8], budget: u64, test: &mut [u8], work: &mut [u8], answer: &mut [u8]
            );
            SearchHeads = ullimaqsu_search_heads(
                circuit: &[u8], fault: &[u8], budget: u64, test: &mut [u8], work: &mut [u8], answer: &mut [u8]
            );
            SearchAll = ullimaqsu_search_all(
                circuit: &[u8], faults: &[u8], budgets: &[u64], outcomes: &mut [u8], counts: &mut [u64], tests: &mut [u8],
                work: &mut [u8], answer: &mut [u8]
            );
            Clauses = ullimaqsu_clauses(circuit: &[u8], fault: &[u8], words: &mut [i32], answer: &mut [u8]);
            Control = ullimaqsu_control(circuit: &[u8], ones: &mut [f64], zeros: &mut [f64], answer: &mut [u8]);
            Bench = ullimaqsu_bench(text: &[u8], circuit: &mut [u8], answer: &mut [u8]);
            BenchNames = ullimaqsu_bench_names(text: &[u8], places: &mut [u32], answer: &mut [u8]);
        }
    };
}

//! Calls into the archive that is linked.
use crate::raw::Call;

macro_rules! linked {
    ($($name:ident = $entry:ident($($field:ident: $(&[$read:ty])? $(&mut [$lent:ty])? $($number:ident)?),*);)*) => {
        mod c {
            extern "C" {
                $(pub fn $entry($($(_: *const $read, _: usize)? $(_: *mut $lent, _: usize)? $(_: $number)?),*) -> u32;)*
            }
        }

        /// The one place where pointers are made. Each comes with the length of its own slice, the lent ones are borrowed mutably, so that none
        /// overlaps another, and the entries reach nothing else.
        pub fn enter(call: &mut Call) -> u32 {
            match call {
                $(Call::$name { $($field),* } => unsafe {
                    c::$entry($(
                        $(<[$read]>::as_ptr($field), $field.len())?
                        $(<[$lent]>::as_mut_ptr($field), $field.len())?
                        $($number::clone($field))?
                    ),*)
                },)*
            }
        }
    };
}
crate::entries!(linked);

pub fn enter_all(calls: &mut [Call]) -> Vec<u32> {
    calls.iter_mut().map(enter).collect()
}

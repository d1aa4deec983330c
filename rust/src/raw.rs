//! The entries as C sees them: what is read, what is lent, and the answer area. Nothing is interpreted, and an area may have any size.

#[cfg(not(direct))]
use crate::bridge as way;
#[cfg(any(not(direct), test))]
use crate::bridge::{Named, Parameter};
#[cfg(direct)]
use crate::direct as way;

macro_rules! calls {
    ($($name:ident = $entry:ident($($field:ident: $(&[$read:ty])? $(&mut [$lent:ty])? $($number:ident)?),*);)*) => {
        /// A call of an entry. The fields stand in the order of the entry's parameters.
        #[derive(Debug)]
        pub enum Call<'a> {
            $($name { $($field: $(&'a [$read])? $(&'a mut [$lent])? $($number)?),* },)*
        }

        #[cfg(any(not(direct), test))]
        impl Call<'_> {
            /// The call as it goes over the bridge.
            pub(crate) fn named(&mut self) -> Named<'_> {
                match self {
                    $(Call::$name { $($field),* } => (stringify!($entry), vec![$($field as &mut dyn Parameter),*]),)*
                }
            }
        }
    };
}
crate::entries!(calls);

/// Calls the entry, and gives what it returns: 0, or the number of the refusal.
pub fn enter(mut call: Call) -> u32 {
    way::enter(&mut call)
}

/// Calls the entries one after the other, and gives what each returns. Over the bridge this is much faster than single calls.
pub fn enter_all(calls: &mut [Call]) -> Vec<u32> {
    way::enter_all(calls)
}

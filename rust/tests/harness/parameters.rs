//! The parameters of each entry, made of the table of entries: what a case has, and the memory of its call.
use cases::Lent;
use second::Slice;
use std::fmt::Debug;
use ullimaqsu::raw::Call;

/// What an entry is given, as it is before the call.
pub trait Parameters: Clone + Debug {
    /// The same for one call, each slice between guards.
    type Memory;

    fn memory(&self) -> Self::Memory;
    fn call(memory: &mut Self::Memory) -> Call<'_>;

    /// The slices that are only read, and those that are lent, in order. The guards must stand.
    fn read(memory: &Self::Memory) -> Vec<Slice>;
    fn lent(memory: &Self::Memory) -> Vec<Slice>;
}

macro_rules! parameters {
    ($($name:ident = $entry:ident($($field:ident: $(&[$read:ty])? $(&mut [$lent:ty])? $($number:ident)?),*);)*) => { $(
        #[allow(dead_code)] // each test has cases of one entry
        #[derive(Clone, Debug)]
        pub struct $name {
            $(pub $field: $(Vec<$read>)? $(Vec<$lent>)? $($number)?),*
        }

        #[allow(unused_variables)] // numbers are no memory
        impl Parameters for $name {
            type Memory = ($($(Lent<$read>)? $(Lent<$lent>)? $($number)?,)*);

            fn memory(&self) -> Self::Memory {
                ($($(Lent::<$read>::new(&self.$field))? $(Lent::<$lent>::new(&self.$field))? $($number::clone(&self.$field))?,)*)
            }

            fn call(memory: &mut Self::Memory) -> Call<'_> {
                let ($($field,)*) = memory;
                Call::$name {
                    $($field: $(Lent::<$read>::back($field))? $(Lent::<$lent>::inside($field))? $($number::clone($field))?),*
                }
            }

            fn read(memory: &Self::Memory) -> Vec<Slice> {
                let ($($field,)*) = memory;
                vec![$($(Lent::<$read>::back($field).to_vec().into(),)?)*]
            }

            fn lent(memory: &Self::Memory) -> Vec<Slice> {
                let ($($field,)*) = memory;
                vec![$($(Lent::<$lent>::back($field).to_vec().into(),)?)*]
            }
        }
    )* };
}
ullimaqsu::entries!(parameters);

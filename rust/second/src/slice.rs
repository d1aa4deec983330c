//! Memory that is lent, of any type of element.

macro_rules! slices {
    ($($of:ident $element:ident)*) => {
        /// Elements of one type.
        #[derive(Clone, Debug)]
        pub enum Slice {
            $($of(Vec<$element>),)*
        }

        /// Bit by bit: 0 is not -0, and what is not a number is what it is.
        impl PartialEq for Slice {
            fn eq(&self, other: &Slice) -> bool {
                match (self, other) {
                    $((Slice::$of(one), Slice::$of(other)) => {
                        one.len() == other.len() && one.iter().zip(other).all(|(one, other)| one.to_le_bytes() == other.to_le_bytes())
                    })*
                    _ => false,
                }
            }
        }

        impl Eq for Slice {}

        impl Slice {
            /// Makes every element this number.
            pub fn fill(&mut self, number: u8) {
                match self {
                    $(Slice::$of(elements) => elements.fill($element::from(number)),)*
                }
            }

            $(
                /// The elements of a slice that is of this type.
                pub fn $element(&mut self) -> &mut Vec<$element> {
                    match self {
                        Slice::$of(elements) => elements,
                        other => panic!("{other:?} is of another type"),
                    }
                }
            )*
        }

        $(impl From<Vec<$element>> for Slice {
            fn from(elements: Vec<$element>) -> Slice {
                Slice::$of(elements)
            }
        })*
    };
}
slices!(U8 u8 I32 i32 U32 u32 U64 u64 F64 f64);

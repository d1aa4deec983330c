//! Values of lines.

/// 0, 1 or X, with the library's numbers.
#[derive(Clone, Copy, PartialEq, Eq, Debug)]
pub enum Value {
    Zero = 0,
    One = 1,
    X = 2,
}

impl Value {
    /// Of the library's byte.
    pub fn of(byte: u8) -> Value {
        match byte {
            0 => Value::Zero,
            1 => Value::One,
            _ => Value::X,
        }
    }

    /// The value that is written so, if one is.
    pub fn written(letter: char) -> Option<Value> {
        [Value::Zero, Value::One, Value::X].into_iter().find(|value| value.letter() == letter.to_ascii_uppercase())
    }

    pub fn letter(self) -> char {
        match self {
            Value::Zero => '0',
            Value::One => '1',
            Value::X => 'X',
        }
    }
}

//! The syntax of the bench notation: a table that is walked byte by byte, made when this is compiled.

// What a byte is: a blank, a sign, a capital that some keyword has, another letter of names, or anything else.
const BLANK: usize = 0;
const LF: usize = 1;
const HASH: usize = 2;
const OPEN: usize = 3;
const CLOSE: usize = 4;
const COMMA: usize = 5;
const EQUALS: usize = 6;
const A: usize = 7;
const B: usize = 8;
const D: usize = 9;
const F: usize = 10;
const I: usize = 11;
const N: usize = 12;
const O: usize = 13;
const P: usize = 14;
const R: usize = 15;
const T: usize = 16;
const U: usize = 17;
const X: usize = 18;
const LETTER: usize = 19;
const OTHER: usize = 20;
const SYMBOLS: usize = 21;

const fn symbol(byte: u8) -> usize {
    match byte {
        b' ' | b'\t' | b'\r' => BLANK,
        b'\n' => LF,
        b'#' => HASH,
        b'(' => OPEN,
        b')' => CLOSE,
        b',' => COMMA,
        b'=' => EQUALS,
        b'A' => A,
        b'B' => B,
        b'D' => D,
        b'F' => F,
        b'I' => I,
        b'N' => N,
        b'O' => O,
        b'P' => P,
        b'R' => R,
        b'T' => T,
        b'U' => U,
        b'X' => X,
        b'a'..=b'z' | b'A'..=b'Z' | b'0'..=b'9' | b'_' => LETTER,
        _ => OTHER,
    }
}

// The states. Those of a name are sixteen, by the letters that it has.
const STUCK: usize = 0;
const LINE: usize = 1;
const COMMENT: usize = 2;
const FIRST: usize = 3; // the first word, no beginning of INPUT or OUTPUT
const FIRST_FULL: usize = 18;
const NAMED: usize = 19; // = must follow
const I_: usize = 20; // and IN, INP, INPU
const INPUT: usize = 24;
const O_: usize = 25; // and OU, OUT, OUTP, OUTPU
const OUTPUT: usize = 30;
const SAID: usize = 31; // = or ( must follow
const GATE: usize = 32;
const AND: usize = 33; // ND is missing
const AN: usize = 34;
const BUFF: usize = 35; // and BU, BUF
const BUF: usize = 37;
const N_: usize = 38;
const NO: usize = 39;
const OR: usize = 40; // R is missing
const X_: usize = 41;
const XN: usize = 42;
const ONE: usize = 43; // a kind with one source
const TWO: usize = 44;
const LAST: usize = 45; // the last source
const LAST_NAME: usize = 46;
const LAST_FULL: usize = 61;
const LAST_NAMED: usize = 62;
const MORE: usize = 63; // the first of two sources
const MORE_NAME: usize = 64;
const MORE_FULL: usize = 79;
const MORE_NAMED: usize = 80;
const END: usize = 81;
const STATES: usize = 82;

/// The state after a letter of a keyword, where this is the next one, and otherwise that of a name of so many letters.
const fn spelled(state: usize, letter: usize, keyword: &[usize], begun: usize) -> usize {
    if letter == keyword[state - begun + 1] {
        state + 1
    } else {
        FIRST + state - begun + 1
    }
}

const fn next(state: usize, symbol: usize) -> usize {
    let letter = symbol >= A && symbol <= LETTER;
    match (state, symbol) {
        (COMMENT, LF) => LINE,
        (COMMENT, _) => COMMENT,
        (LINE | END, LF) => LINE,
        (LINE | END, HASH) => COMMENT,
        (LINE | NAMED | SAID | GATE | ONE | TWO | LAST | LAST_NAMED | MORE | MORE_NAMED | END, BLANK) => state,

        (LINE, I) => I_,
        (LINE, O) => O_,
        (LINE, _) if letter => FIRST,
        (FIRST..FIRST_FULL, _) if letter => state + 1,
        (I_..INPUT, _) if letter => spelled(state, symbol, &[I, N, P, U, T], I_),
        (O_..OUTPUT, _) if letter => spelled(state, symbol, &[O, U, T, P, U, T], O_),
        (INPUT, _) if letter => FIRST + 5,
        (OUTPUT, _) if letter => FIRST + 6,
        (INPUT | OUTPUT, BLANK) => SAID,
        (INPUT | OUTPUT | SAID, OPEN) => LAST,
        (FIRST..=OUTPUT, BLANK) => NAMED,
        (FIRST..=SAID, EQUALS) => GATE,

        (GATE | N_, A) => AND,
        (GATE, B) => BUFF,
        (GATE, N) => N_,
        (GATE | X_ | XN, O) => OR,
        (GATE, X) => X_,
        (AND, N) => AN,
        (AN, D) => TWO,
        (BUFF, U) => BUFF + 1,
        (36, F) => BUF,
        (BUF, F) => ONE,
        (N_, O) => NO,
        (NO, T) => ONE,
        (NO | OR, R) => TWO,
        (X_, N) => XN,

        (ONE, OPEN) => LAST,
        (TWO, OPEN) => MORE,
        (LAST..LAST_FULL, _) | (MORE..MORE_FULL, _) if letter && state != LAST_NAMED => state + 1,
        (LAST_NAME..=LAST_FULL, BLANK) => LAST_NAMED,
        (LAST_NAME..=LAST_NAMED, CLOSE) => END,
        (MORE_NAME..=MORE_FULL, BLANK) => MORE_NAMED,
        (MORE_NAME..=MORE_NAMED, COMMA) => LAST,
        _ => STUCK,
    }
}

static SYMBOL: [u8; 256] = {
    let mut table = [0; 256];
    let mut byte = 0;
    while byte < 256 {
        table[byte] = symbol(byte as u8) as u8;
        byte += 1;
    }
    table
};

static NEXT: [u8; STATES * SYMBOLS] = {
    let mut table = [0; STATES * SYMBOLS];
    let mut entry = 0;
    while entry < STATES * SYMBOLS {
        table[entry] = next(entry / SYMBOLS, entry % SYMBOLS) as u8;
        entry += 1;
    }
    table
};

/// Refusal 14.
pub fn check(text: &[u8]) -> Result<(), (u32, usize)> {
    let mut state = LINE;
    for (place, &byte) in text.iter().enumerate() {
        state = NEXT[SYMBOLS * state + SYMBOL[byte as usize] as usize] as usize;
        if state == STUCK || place == 32_768 {
            return Err((14, place));
        }
    }
    match state {
        LINE | COMMENT | END => Ok(()),
        _ => Err((14, text.len())),
    }
}

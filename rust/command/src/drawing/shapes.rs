//! The shapes of gates, around the middle of the gate: the classical ones, with a bubble where the gate inverts.
use super::heights::pin_height;
use super::svg::{Anchor, Svg};
use crate::kind::Kind;

/// Half the width of a gate's body.
pub const BODY: f64 = 28.0;
/// Half its height.
pub const HALF: f64 = 22.0;
const BUBBLE: f64 = 4.0;

/// The outline of a kind's body.
fn outline(kind: Kind) -> &'static str {
    match kind {
        Kind::Input | Kind::Buffer | Kind::Not => "M-28 -22L28 0L-28 22Z",
        Kind::And | Kind::Nand => "M-28 -22H6A22 22 0 0 1 6 22H-28Z",
        Kind::Or | Kind::Nor => "M-28 -22Q6 -22 28 0Q6 22 -28 22Q-16 0 -28 -22Z",
        Kind::Xor | Kind::Xnor => "M-28 -22Q6 -22 28 0Q6 22 -28 22Q-16 0 -28 -22ZM-34 -22Q-22 0 -34 22",
        Kind::Selector => "M-28 -22L28 -12V12L-28 22Z",
    }
}

/// Where the wires at the pins end.
pub fn left(kind: Kind) -> f64 {
    match kind {
        Kind::Or | Kind::Nor | Kind::Xor | Kind::Xnor => -23.5,
        _ => -BODY,
    }
}

/// Where the wire behind the gate begins.
pub fn right(kind: Kind) -> f64 {
    if kind.inverts() {
        BODY + 2.0 * BUBBLE
    } else {
        BODY
    }
}

pub fn draw(svg: &mut Svg, kind: Kind) {
    svg.path("gate", outline(kind));
    if kind.inverts() {
        svg.circle("gate", BODY + BUBBLE, 0.0, BUBBLE);
    }
    let (middle, says) = label(kind);
    svg.text("kind", Anchor::Middle, middle, 4.0, says);
    for (pin, mark) in marks(kind).iter().enumerate() {
        svg.text("kind", Anchor::Start, left(kind) + 4.0, pin_height(pin, kind.pins()) + 3.5, mark);
    }
}

/// What is written into a body, and where its middle is.
fn label(kind: Kind) -> (f64, &'static str) {
    match kind {
        // the whole word is as wide as the body, which has its marks too
        Kind::Selector => (6.0, "SEL"),
        Kind::Buffer | Kind::Not => (-10.0, kind.word()),
        _ => (1.0, kind.word()),
    }
}

/// What stands beside the pins, where they are not all alike: at a source the select that gives it, and which pin is the select.
fn marks(kind: Kind) -> &'static [&'static str] {
    match kind {
        Kind::Selector => &["0", "1", "S"],
        _ => &[],
    }
}

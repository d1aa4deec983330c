//! Colours and strokes, and the legend that says what they mean.
use super::nodes::cross;
use super::svg::{Anchor, Svg};

/// Names and values have letters of one width. Texts have a white rim, so that they can be read where they lie on a wire.
pub const STYLE: &str = "
.paper{fill:#fff}
.wire{fill:none;stroke:#345;stroke-width:1.4}
.one{stroke-width:3}
.x{stroke:#789;stroke-dasharray:5 4}
.gate{fill:#f4f7fb;stroke:#123;stroke-width:1.6}
.dot{fill:#345}
.cross{fill:none;stroke:#d00020;stroke-width:3.5}
text{font-family:monospace;font-size:14px;fill:#123;paint-order:stroke;stroke:#fff;stroke-width:4px;stroke-linejoin:round}
.kind{font-family:sans-serif;font-size:10px;fill:#567;stroke:none}
.level,.label,.legend{font-size:12px;fill:#567}
.name{font-weight:bold;stroke:none}
.value{font-weight:bold}
.title{font-family:sans-serif;font-size:20px;font-weight:bold}
.verdict{font-family:sans-serif;font-size:16px}
.stuck{font-weight:bold;fill:#d00020}
.wire.differs{stroke:#d00020;stroke-width:3}
.wire.perhaps{stroke:#c06000;stroke-width:3}
.dot.differs,.value.differs{fill:#d00020}
.dot.perhaps,.value.perhaps{fill:#c06000}
";

/// A class of wires and what it means.
const VALUES: [(&str, &str); 3] = [("wire one", "1"), ("wire zero", "0"), ("wire x", "X")];
/// The same where there is a fault.
const DIFFERENCES: [(&str, &str); 2] = [("wire one differs", "good and faulty value differ"), ("wire one perhaps", "one of the two is X")];
/// How long a piece of wire is, and how wide a letter behind it.
const PIECE: f64 = 34.0;
const LETTER: f64 = 7.5;

pub fn legend(svg: &mut Svg, left: f64, y: f64, fault: bool) {
    let mut x = left;
    let differences = if fault { &DIFFERENCES[..] } else { &[] };
    for (class, says) in VALUES.iter().chain(differences) {
        svg.path(class, &format!("M{x} {y}H{}", x + PIECE));
        x = entry(svg, x + PIECE, y, says);
    }
    if fault {
        svg.path("cross", &cross(x + 7.0, y));
        x = entry(svg, x + 14.0, y, "stuck here");
        entry(svg, x - 6.0, y, "1/0: good/faulty");
    }
}

/// What stands behind a sample; gives where the next may begin.
fn entry(svg: &mut Svg, x: f64, y: f64, says: &str) -> f64 {
    svg.text("legend", Anchor::Start, x + 6.0, y + 4.0, says);
    x + 30.0 + LETTER * says.len() as f64
}

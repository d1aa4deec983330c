//! Gate rules whose selectors are wrong in one way each.
use second::circuit::Gate;
use second::Value;

/// What a gate makes of the values at its pins.
pub type Rule = fn(Gate<Value>) -> Value;

/// The gate rule but for selectors.
fn but_for_selectors(gate: Gate<Value>, selected: fn(Value, Value, Value) -> Value) -> Value {
    match gate {
        Gate::Selector(first, second, select) => selected(first, second, select),
        other => other.value(),
    }
}

pub const RULES: [(&str, Rule); 5] = [
    ("gives X wherever the select is X", |gate| but_for_selectors(gate, |first, second, select| if select? { second } else { first })),
    ("gives the second source where the select is 0", |gate| {
        but_for_selectors(gate, |first, second, select| Gate::Selector(second, first, select).value())
    }),
    ("takes a select of X for 0", |gate| {
        but_for_selectors(gate, |first, second, select| if select == Some(true) { second } else { first })
    }),
    ("asks for both sources though the select is known", |gate| {
        but_for_selectors(gate, |first, second, select| Gate::Selector(Some(first?), Some(second?), select).value())
    }),
    ("takes an unknown source for the other one", |gate| {
        but_for_selectors(gate, |first, second, select| Gate::Selector(first.or(second), second.or(first), select).value())
    }),
];

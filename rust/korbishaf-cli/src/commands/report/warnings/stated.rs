//! Counts and bounds that the header states wrongly.

use super::super::plan::Plan;
use super::super::warning::Warning;
use crate::json::Json;

/// The warnings.
pub fn of(plan: &Plan<'_>) -> Vec<Warning> {
    let returns = (1..).zip(plan.facts.returns());
    let wrong_returns: Vec<_> = returns
        .filter(|(_, compared)| compared.differs())
        .map(|(number, compared)| Wrong {
            name: format!("return {number}"),
            stated: Json::number(compared.stated),
            actual: Json::number(compared.actual),
        })
        .collect();
    let bounds = plan.facts.bounds().into_iter();
    let wrong_bounds: Vec<_> = bounds
        .filter(|bound| bound.values.differs())
        .map(|bound| Wrong {
            name: bound.name.into(),
            stated: Json::Double(bound.values.stated),
            actual: Json::Double(bound.values.actual),
        })
        .collect();
    let returns = warning("returns_wrong", "points by return", wrong_returns);
    let bounds = warning("bounds_wrong", "bounds", wrong_bounds);
    returns.into_iter().chain(bounds).collect()
}

/// A value that the header states wrongly.
struct Wrong {
    name: String,
    stated: Json,
    actual: Json,
}

/// The warning for these values; none where there are none.
fn warning(kind: &'static str, what: &str, wrong: Vec<Wrong>) -> Option<Warning> {
    if wrong.is_empty() {
        return None;
    }
    let names: Vec<_> = wrong.iter().map(|value| value.name.as_str()).collect();
    let words = format!(
        "the stated {what} are wrong ({}); a release has its own",
        names.join(", ")
    );
    let values = Json::list(wrong, |value| {
        Json::Object(vec![
            ("name", Json::text(value.name)),
            ("stated", value.stated),
            ("actual", value.actual),
        ])
    });
    Some(Warning::new(kind, words, vec![("values", values)]))
}

//! One call explained by both implementations.

use engine::reasons::Reason;
use model::Tables;

use super::boundary::Explain;
use crate::difference::{same, Difference};
use crate::relay::agree::{describe, same_lent};
use crate::relay::boundary::{Call, Lent, Second};

/// The reason on which the two agree. All that was lent must be as it was.
pub fn explain(subject: &impl Explain, tables: &Tables, call: &Call) -> Result<Reason, Difference> {
    // Explanations aren't handed the map.
    let before = Lent::new(tables, 0, call);
    let mut lent = before.clone();
    let reason = subject.explain(call, &mut lent);
    let described = || format!("explaining {}", describe(call, tables));
    same(described, &reason, &Second.explain(call, &mut before.clone()))?;
    same_lent(described, &lent, &before)?;
    Ok(reason)
}

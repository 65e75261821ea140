//! Where each fact stands.

use super::instances::Instances;
use super::rows::Rows;

/// By fact, the instances in which it is a condition or an alternative.
pub struct Places {
    pub in_chaining: Rows,
    pub in_splitting: Rows,
    /// as a condition with another one after it
    pub before_another_in_chaining: Rows,
    pub before_another_in_splitting: Rows,
    pub given_by_chaining: Rows,
    pub offered_by_splitting: Rows,
}

impl Places {
    pub fn of(instances: &Instances) -> Places {
        let facts = instances.falsity as usize + 1;
        let (chaining, splitting) = (&instances.chaining, &instances.splitting);
        Places {
            in_chaining: chaining.conditions.turned(facts, 0),
            in_splitting: splitting.conditions.turned(facts, 0),
            before_another_in_chaining: chaining.conditions.turned(facts, 1),
            before_another_in_splitting: splitting.conditions.turned(facts, 1),
            given_by_chaining: chaining.alternatives.turned(facts, 0),
            offered_by_splitting: splitting.alternatives.turned(facts, 0),
        }
    }
}

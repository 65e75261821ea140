//! Which splitting instances can be split.

use super::first_of::FirstOf;
use super::instances::Instances;

/// What a splitting instance lacks: one for each alternative not wanted, and this for each condition not true and each
/// alternative that is true.
pub const UNFIT: u8 = 8;

/// What each splitting instance lacks, and those that lack nothing, which can be split.
pub struct Splits {
    lacks: Vec<u8>,
    pub ready: FirstOf,
}

impl Splits {
    pub fn new(instances: &Instances) -> Splits {
        let (conditions, alternatives) = (&instances.splitting.conditions, &instances.splitting.alternatives);
        let lacks = conditions.lengths().zip(alternatives.lengths()).map(|(n, m)| UNFIT * n as u8 + m as u8).collect();
        Splits { lacks, ready: FirstOf::new(conditions.len()) }
    }

    #[inline]
    pub fn more(&mut self, instance: u16, by: u8) {
        let lacks = &mut self.lacks[instance as usize];
        if *lacks == 0 {
            self.ready.remove(instance);
        }
        *lacks += by;
    }

    #[inline]
    pub fn less(&mut self, instance: u16, by: u8) {
        let lacks = &mut self.lacks[instance as usize];
        *lacks -= by;
        if *lacks == 0 {
            self.ready.put(instance);
        }
    }

    #[inline]
    pub fn all_wanted(&self, instance: u16) -> bool {
        self.lacks[instance as usize] % UNFIT == 0
    }
}

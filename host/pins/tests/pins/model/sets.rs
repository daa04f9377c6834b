//! Two sets of chambers, one for each crew, and no table at all: what the crews are answered from an empty table on, as long as nothing but
//! the calls changes it.

use std::collections::BTreeSet;

#[derive(Clone, Default)]
pub struct Sets {
    one: BTreeSet<u32>,
    two: BTreeSet<u32>,
}

impl Sets {
    /// A crew's own set; none for an unknown crew.
    pub fn of(&self, crew: u32) -> Option<&BTreeSet<u32>> {
        match crew {
            1 => Some(&self.one),
            2 => Some(&self.two),
            _ => None,
        }
    }

    fn of_mut(&mut self, crew: u32) -> Option<&mut BTreeSet<u32>> {
        match crew {
            1 => Some(&mut self.one),
            2 => Some(&mut self.two),
            _ => None,
        }
    }

    pub fn add(&mut self, crew: u32, chamber: u32) -> u32 {
        match self.of_mut(crew) {
            None => 11,
            Some(_) if chamber >= 1_000 => 12,
            Some(own) if own.contains(&chamber) => 13,
            Some(own) if own.len() == 32 => 14,
            Some(own) => u32::from(!own.insert(chamber)),
        }
    }

    pub fn remove(&mut self, crew: u32, chamber: u32) -> u32 {
        match self.of_mut(crew) {
            None => 11,
            Some(_) if chamber >= 1_000 => 12,
            Some(own) => {
                if own.remove(&chamber) {
                    0
                } else {
                    13
                }
            }
        }
    }

    /// The number, and the chambers in register order.
    pub fn list(&self, crew: u32) -> (u32, Vec<u32>) {
        self.of(crew).map_or((11, vec![]), |own| (0, own.iter().copied().collect()))
    }
}

//! MODEL H1 to H6: the list behind step back. For each listed step it keeps the whole
//! record that was there before, so that taking the step back is putting that
//! record in place again. Which steps are listed, session.rs decides.

use crate::model::Machine;
use std::collections::VecDeque;

/// So many steps can be taken back.
pub const DEPTH: usize = 64;

/// Records from before the latest steps, the oldest first.
#[derive(Clone, Debug, Default, PartialEq, Eq)]
pub struct Earlier(VecDeque<Machine>);

impl Earlier {
    /// How many steps can be taken back now.
    pub fn len(&self) -> usize {
        self.0.len()
    }

    /// Nothing can be taken back.
    pub fn is_empty(&self) -> bool {
        self.0.is_empty()
    }

    /// Lists a step by the record before it. The oldest one goes where there
    /// would be one too many.
    pub fn list(&mut self, before: Machine) {
        if self.0.len() == DEPTH {
            self.0.pop_front();
        }
        self.0.push_back(before);
    }

    /// Takes the latest step off the list: the record before it, if there is one.
    pub fn take(&mut self) -> Option<Machine> {
        self.0.pop_back()
    }

    /// Forgets all steps.
    pub fn clear(&mut self) {
        self.0.clear();
    }
}

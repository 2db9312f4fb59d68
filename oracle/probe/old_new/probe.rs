//! Shows which side is which.

use super::{OldNew, OldNewState};

impl<T: Default> OldNew<T> {
    pub(crate) fn sides(&self) -> [&T; 2] {
        [&self.left, &self.right]
    }

    pub(crate) fn sides_mut(&mut self) -> [&mut T; 2] {
        [&mut self.left, &mut self.right]
    }

    pub(crate) fn left_is_new(&self) -> bool {
        matches!(self.state, OldNewState::LeftNewRightOld)
    }
}

//! A value before the log, and now.

/// What stood somewhere before the log, and what stands there now.
#[derive(Clone, Debug, PartialEq, Eq)]
pub(crate) struct Change<T> {
    pub before: T,
    pub now: T,
}

impl<T: PartialEq> Change<T> {
    /// Whether the log has changed it.
    pub fn is_one(&self) -> bool {
        self.before != self.now
    }

    /// Whether a value is the one of now, and not the one before; none where it is neither.
    pub fn side_of(&self, value: &T) -> Option<bool> {
        if *value == self.now {
            Some(true)
        } else if *value == self.before {
            Some(false)
        } else {
            None
        }
    }
}

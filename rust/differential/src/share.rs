//! How much is asked that the independent program takes long for: all that is small, and of what is
//! larger as much as has its share in the time.

pub struct Share {
    /// The work up to which all is asked.
    small: u64,
    /// What each larger one has, and what those before have left.
    share: u64,
    left: u64,
}

impl Share {
    pub fn new(small: u64, share: u64) -> Share {
        Share { small, share, left: 0 }
    }

    pub fn affords(&mut self, work: u64) -> bool {
        if work > self.small {
            self.left += self.share;
            let Some(left) = self.left.checked_sub(work) else {
                return false;
            };
            self.left = left;
        }
        true
    }
}

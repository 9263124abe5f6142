/// A work allowance, which is the caller's. [`Solver::complete_within`](crate::Solver::complete_within) and [`complete_within`](crate::complete_within) take the count of each pass from it; it never grows.
#[derive(Clone, Copy, Debug, PartialEq, Eq, Hash)]
pub struct Meter {
    remainder: u64,
}

impl Meter {
    /// With this allowance.
    #[must_use]
    pub const fn new(allowance: u64) -> Self {
        Self {
            remainder: allowance,
        }
    }

    /// What is left of the allowance.
    #[must_use]
    pub const fn remainder(&self) -> u64 {
        self.remainder
    }

    /// The number that a call charges.
    pub(crate) const fn allowance(&mut self) -> *mut u64 {
        &raw mut self.remainder
    }
}

//! Stand-ins for what the originals take from `zetesis_algebra`.

use std::convert::Infallible;
use std::marker::PhantomData;

/// Why a call stopped before its end.
#[derive(Clone, Copy, Debug, PartialEq, Eq)]
pub(crate) enum Stop {
    Allocation,
    InvalidProgram,
}

/// A stop of the call itself, or a quota's own refusal.
#[derive(Clone, Copy, Debug, PartialEq, Eq)]
pub(crate) enum Failure<E> {
    Stopped(Stop),
    #[allow(dead_code)] // The quota here refuses nothing.
    Refused(E),
}

impl<E> From<Stop> for Failure<E> {
    fn from(stop: Stop) -> Self {
        Self::Stopped(stop)
    }
}

/// What a meter draws on.
pub(crate) trait Quota {
    type Error;
}

/// A quota without an end.
pub(crate) struct Endless;

impl Quota for Endless {
    type Error = Infallible;
}

/// A meter that never stops.
pub(crate) struct Meter<'a, Q: Quota + ?Sized>(PhantomData<&'a mut Q>);

impl Meter<'_, Endless> {
    pub(crate) fn endless() -> Self {
        Self(PhantomData)
    }
}

impl<Q: Quota + ?Sized> Meter<'_, Q> {
    pub(crate) fn tick(&mut self) -> Result<(), Failure<Q::Error>> {
        Ok(())
    }
}

//! Stub for the angles of parametric gates. The type has no value, so no such
//! gate can be made here.

use std::fmt;

#[derive(Clone, Debug, PartialEq)]
pub enum Angle {}

#[derive(Clone, Debug)]
pub enum AngleError {}

impl Angle {
    pub fn from_f64(_: f64) -> Result<Self, AngleError> {
        panic!("stub of the oracle: Angle::from_f64")
    }

    pub fn literal_eq(&self, _: &Self) -> bool {
        panic!("stub of the oracle: Angle::literal_eq")
    }
}

impl fmt::Display for Angle {
    fn fmt(&self, _: &mut fmt::Formatter<'_>) -> fmt::Result {
        panic!("stub of the oracle: Angle's Display")
    }
}

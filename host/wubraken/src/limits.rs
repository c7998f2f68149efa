//! Which field is outside its limits.

use std::error::Error;
use std::fmt;

use crate::{Arrival, Refusal, Shape};

/// A field of a shape or an arrival that the pool refuses.
#[derive(Clone, Copy, Debug, PartialEq, Eq, Hash)]
#[non_exhaustive]
pub struct OutsideLimits {
    /// The field's name.
    pub field: &'static str,
    /// What it is.
    pub value: u64,
    /// The least that it may be.
    pub least: u64,
    /// The most that it may be.
    pub most: u64,
    /// What the pool refuses it by.
    pub refusal: Refusal,
}

impl fmt::Display for OutsideLimits {
    fn fmt(&self, f: &mut fmt::Formatter<'_>) -> fmt::Result {
        let Self {
            field,
            value,
            least,
            most,
            ..
        } = self;
        write!(f, "{field} is {value}, and must be {least} to {most}")
    }
}

impl Error for OutsideLimits {}

impl Shape {
    /// The first field outside its limits, if there is one; then the pool refuses
    /// by [`Refusal::BadShape`].
    ///
    /// ```
    /// use wubraken::Shape;
    ///
    /// let shape = Shape { workers: 2, nodes: 5_000, buckets: 16, width: 48 };
    /// let outside = shape.check().unwrap_err();
    /// assert_eq!(outside.to_string(), "nodes is 5000, and must be 1 to 4096");
    /// ```
    pub fn check(&self) -> Result<(), OutsideLimits> {
        let check = |field, value, most| within(field, value, (1, most), Refusal::BadShape);
        check("workers", self.workers, Self::MAX_WORKERS)?;
        check("nodes", self.nodes, Self::MAX_NODES)?;
        check("buckets", self.buckets, Self::MAX_BUCKETS)?;
        check("width", self.width, Self::MAX_WIDTH)
    }
}

impl Arrival {
    /// The first field outside its limits, if there is one; then the pool refuses
    /// by [`Refusal::BadArrival`]. The time may be any number.
    ///
    /// ```
    /// use wubraken::Arrival;
    ///
    /// let arrival = Arrival { time: u32::MAX, path: 7, order: 1, distance: 3 };
    /// assert!(arrival.check().is_ok());
    ///
    /// let outside = Arrival { order: 64, ..arrival }.check().unwrap_err();
    /// assert_eq!(outside.to_string(), "order is 64, and must be 0 to 63");
    /// ```
    pub fn check(&self) -> Result<(), OutsideLimits> {
        let check = |field, value: u32, least, most: u32| {
            let limits = (least, most.into());
            within(field, value.into(), limits, Refusal::BadArrival)
        };
        check("path", self.path, 0, Self::MAX_PATH)?;
        check("order", self.order, 0, Self::MAX_ORDER)?;
        check("distance", self.distance, 1, Self::MAX_DISTANCE)
    }
}

fn within(
    field: &'static str,
    value: u64,
    (least, most): (u64, u64),
    refusal: Refusal,
) -> Result<(), OutsideLimits> {
    if (least..=most).contains(&value) {
        return Ok(());
    }
    Err(OutsideLimits {
        field,
        value,
        least,
        most,
        refusal,
    })
}

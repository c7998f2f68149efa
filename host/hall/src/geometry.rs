//! Mirrored sources of a shoebox hall.
//!
//! The sound of a source reaches a listener by way of some walls as if it came
//! straight from the source's mirror image behind them. Energy falls with the
//! square of the distance (the pool's spreading); what walls and air absorb is left
//! out.

use wubraken::Arrival;

pub const SAMPLES_PER_SECOND: f64 = 48_000.0;
pub const SAMPLES_PER_MILLISECOND: u64 = 48;
const METRES_PER_SECOND: f64 = 343.0;

/// A hall with two corners at 0 and `size`, and two points inside; centimetres.
#[derive(Clone, Copy, Debug)]
pub struct Hall {
    pub size: [i32; 3],
    pub source: [i32; 3],
    pub listener: [i32; 3],
}

/// How often a source is mirrored along each axis; negative towards the origin.
///
/// Mirroring once more away from the hall moves the image away from every point
/// inside it, so that a reflection comes no earlier than what is reflected.
#[derive(Clone, Copy, Debug, PartialEq, Eq)]
pub struct Image([i32; 3]);

/// Path numbers have five bits an axis.
pub const GREATEST_ORDER: u32 = 15;
const BITS: u32 = 5;
const MIDDLE: i32 = 1 << (BITS - 1);

impl Image {
    /// The source itself.
    pub const DIRECT: Self = Self([0; 3]);

    /// The image that [`Image::path`] has numbered.
    pub fn from_path(path: u32) -> Self {
        let mask = (1 << BITS) - 1;
        Self([2 * BITS, BITS, 0].map(|shift| (path >> shift & mask) as i32 - MIDDLE))
    }

    pub fn path(self) -> u32 {
        let digits = self.0.iter().map(|&count| (count + MIDDLE) as u32);
        digits.fold(0, |path, digit| path << BITS | digit)
    }

    /// How many walls the sound has met.
    pub fn order(self) -> u32 {
        self.0.iter().map(|count| count.unsigned_abs()).sum()
    }

    /// The images mirrored once more: along the last mirrored axis, outwards, and
    /// along the axes behind it, both ways. So each image has one parent.
    pub fn reflections(self) -> Vec<Self> {
        let last_mirrored = self.0.iter().rposition(|&count| count != 0);
        let mut images = Vec::new();
        for axis in last_mirrored.unwrap_or(0)..3 {
            for side in [-1, 1] {
                if self.0[axis] * side >= 0 {
                    let mut image = self;
                    image.0[axis] += side;
                    images.push(image);
                }
            }
        }
        images
    }
}

impl Hall {
    /// When and from how far the sound of an image arrives.
    pub fn arrival(&self, image: Image) -> Arrival {
        let metres = self.metres(image);
        Arrival {
            time: (metres * SAMPLES_PER_SECOND / METRES_PER_SECOND).round() as u32,
            path: image.path(),
            order: image.order(),
            distance: metres.round().max(1.0) as u32,
        }
    }

    /// When the last reflection up to an order arrives. What is too far for a pool is
    /// left out; what is reflected from it is farther still.
    pub fn latest(&self, order: u32) -> u32 {
        let mut images = vec![Image::DIRECT];
        let mut latest = 0;
        while let Some(image) = images.pop() {
            let arrival = self.arrival(image);
            if arrival.check().is_ok() {
                latest = latest.max(arrival.time);
                if image.order() < order {
                    images.extend(image.reflections());
                }
            }
        }
        latest
    }

    fn metres(&self, image: Image) -> f64 {
        let square = |axis: usize| {
            let apart = f64::from(self.place(image, axis) - self.listener[axis]) / 100.0;
            apart * apart
        };
        (square(0) + square(1) + square(2)).sqrt()
    }

    /// Where an image lies on an axis.
    fn place(&self, image: Image, axis: usize) -> i32 {
        let count = image.0[axis];
        let within = match count % 2 {
            0 => self.source[axis],
            _ => self.size[axis] - self.source[axis],
        };
        count * self.size[axis] + within
    }
}

//! Mirrored sources.

use std::collections::HashSet;

use hall::{Arguments, Image, GREATEST_ORDER};
use wubraken::Arrival;

/// Every image up to an order, in the order of its reflections.
fn images(order: u32) -> Vec<Image> {
    let mut images = vec![Image::DIRECT];
    let mut next = 0;
    while let Some(&image) = images.get(next) {
        if image.order() < order {
            images.extend(image.reflections());
        }
        next += 1;
    }
    images
}

/// In three dimensions, 4 n^2 + 2 images have order n.
#[test]
fn each_image_has_one_parent() {
    let images = images(GREATEST_ORDER);
    let paths: HashSet<u32> = images.iter().map(|image| image.path()).collect();
    assert_eq!(paths.len(), images.len());
    for order in 1..=GREATEST_ORDER {
        let count = images.iter().filter(|image| image.order() == order).count();
        assert_eq!(count as u32, 4 * order * order + 2);
    }
}

#[test]
fn a_path_number_is_its_image() {
    for image in images(GREATEST_ORDER) {
        assert!(image.path() <= Arrival::MAX_PATH);
        assert_eq!(Image::from_path(image.path()), image);
    }
}

#[test]
fn a_reflection_comes_no_earlier_than_its_parent() {
    let hall = Arguments::default().job().hall;
    for image in images(GREATEST_ORDER - 1) {
        for reflection in image.reflections() {
            assert_eq!(reflection.order(), image.order() + 1);
            assert!(hall.arrival(reflection).time >= hall.arrival(image).time);
        }
    }
}

/// 10 metres along, 1.5 across, 0.3 down: 10.116 metres, 1,416 samples at 343 m/s.
#[test]
fn the_direct_sound() {
    let arrival = Arguments::default().job().hall.arrival(Image::DIRECT);
    assert_eq!((arrival.time, arrival.distance), (1_416, 10));
}

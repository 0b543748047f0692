//! A camera, what it observed, and a point in its frame.

use oracle::generate::{self, Source};

use super::{LIMIT, nudged, zero};

type Sight = ([f64; 5], [f64; 2], [f64; 3]);

/// A sight of any kind.
pub fn sight(source: &mut Source) -> Sight {
    match source.below(10) {
        0..=2 => sound(source),
        3 => damaged(source),
        4 | 5 => at_the_limit(source),
        6 => scaled(source),
        7 => lone_depth(source),
        8 => small(source),
        _ => (source.numbers(), source.numbers(), source.numbers()),
    }
}

/// A point in front of a camera, seen somewhere in the picture.
fn sound(source: &mut Source) -> Sight {
    let point = [
        source.between(-3.0, 3.0),
        source.between(-3.0, 3.0),
        source.between(0.5, 9.0),
    ];
    let observation = [source.between(0.0, 1400.0), source.between(0.0, 1000.0)];
    (generate::camera(source), observation, point)
}

/// A sound sight with specials in one to three places.
fn damaged(source: &mut Source) -> Sight {
    let (mut camera, mut observation, mut point) = sound(source);
    let mut places: Vec<_> = camera
        .iter_mut()
        .chain(&mut observation)
        .chain(&mut point)
        .collect();
    source.damage(&mut places);
    (camera, observation, point)
}

/// The depth is 64ε of the largest coordinate, or close to it.
fn at_the_limit(source: &mut Source) -> Sight {
    let largest = match source.below(4) {
        0 => 1.0,
        1 => source.power(),
        2 => source.moderate().abs(),
        _ => source.finite().abs(),
    };
    let wide = if source.once_in(2) { largest } else { -largest };
    let other = match source.below(3) {
        0 => zero(source),
        1 => source.between(-LIMIT, LIMIT) * largest,
        _ => source.between(-1.0, 1.0) * largest,
    };
    let depth = nudged(source, LIMIT * largest);
    let point = if source.once_in(2) {
        [wide, other, depth]
    } else {
        [other, wide, depth]
    };
    let camera = match source.below(3) {
        0 => [1.0, 1.0, 0.0, 0.0, 0.0],
        1 => generate::camera(source),
        _ => source.moderates(),
    };
    (camera, source.moderates(), point)
}

/// A sound sight with camera, observation or point scaled by a power of two.
fn scaled(source: &mut Source) -> Sight {
    let (camera, observation, point) = sound(source);
    let mut power = || {
        if source.once_in(2) {
            1.0
        } else {
            source.power()
        }
    };
    let (a, b, c) = (power(), power(), power());
    (
        camera.map(|value| value * a),
        observation.map(|value| value * b),
        point.map(|value| value * c),
    )
}

/// A depth of any size, with coordinates at most as large or zero.
fn lone_depth(source: &mut Source) -> Sight {
    let depth = source.finite().abs();
    let point = [
        source.small() / 4.0 * depth,
        source.small() / 4.0 * depth,
        depth,
    ];
    (source.numbers(), source.moderates(), point)
}

/// Small whole numbers throughout, so that sums cancel.
fn small(source: &mut Source) -> Sight {
    let mut small = || source.small();
    let camera = std::array::from_fn(|_| small());
    (camera, [small(), small()], [small(), small(), small()])
}

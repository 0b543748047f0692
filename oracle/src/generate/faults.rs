//! Plates that cannot be measured well, or at all, and plates of any sort.

use super::plates::{Case, grid, problem};
use super::rigs::{damping, observed, rig, rotation};
use super::source::{Source, two_to};
use crate::optimizer::norm;
use crate::projection::tangent_basis;

/// Heads and plates that cannot be measured well, or at all.
#[derive(Clone, Copy, Debug, PartialEq, Eq)]
pub enum Fault {
    /// All correspondences on the line through both lenses.
    OnLine,
    /// A translation basis of zeros: the 5 by 5 solve has nothing to hold on to.
    ZeroBasis,
    /// Both vectors of the translation basis the same.
    EqualBasis,
    /// All correspondences at one place.
    EqualPoints,
    /// A negative focal length in one camera.
    NegativeFocal,
    /// A focal length of zero, either sign, in one camera.
    ZeroFocal,
    /// Both lenses at one place, so that no correspondence has a depth.
    NoParallax,
    /// Correspondences so far away that their depth is barely seen: weak blocks.
    Far,
    /// A correspondence level with or behind a lens.
    Behind,
    /// Everything scaled by a power of two, up to overflow and underflow.
    Scaled,
    /// Small whole numbers throughout: exact zeros and cancellations.
    Whole,
}

/// All kinds.
pub const FAULTS: [Fault; 11] = [
    Fault::OnLine,
    Fault::ZeroBasis,
    Fault::EqualBasis,
    Fault::EqualPoints,
    Fault::NegativeFocal,
    Fault::ZeroFocal,
    Fault::NoParallax,
    Fault::Far,
    Fault::Behind,
    Fault::Scaled,
    Fault::Whole,
];

/// A plate of `n` correspondences with one fault.
pub fn faulty(source: &mut Source, n: usize, fault: Fault) -> Case {
    let mut case = problem(source, n);
    match fault {
        Fault::OnLine => return on_line(source, n),
        Fault::ZeroBasis => case.rig.basis = [0.0; 6],
        Fault::EqualBasis => case.rig.basis.copy_within(0..3, 3),
        Fault::EqualPoints => return equal_points(source, n),
        Fault::NegativeFocal => {
            let focal = &mut case.rig.cameras[source.below(2)][source.below(2)];
            *focal = -*focal;
        }
        Fault::ZeroFocal => {
            let zero = if source.once_in(2) { 0.0 } else { -0.0 };
            case.rig.cameras[source.below(2)][source.below(2)] = zero;
        }
        Fault::NoParallax => case.rig.translation = [0.0; 3],
        Fault::Far => return far(source, n),
        Fault::Behind if n > 0 => {
            let depth = &mut case.points[3 * source.below(n) + 2];
            *depth = [0.0, -0.0, -1.0, 1e-17, -*depth][source.below(5)];
        }
        Fault::Behind => {}
        Fault::Scaled => scale(source, &mut case),
        Fault::Whole => whole(source, &mut case),
    }
    case
}

/// Correspondences on the line through both lenses, in front of each: with no rotation
/// the second lens is at minus the translation.
fn on_line(source: &mut Source, n: usize) -> Case {
    let mut case = Case::new(rig(source), damping(source));
    let (x, y) = (source.between(-0.2, 0.2), source.between(-0.2, 0.2));
    case.rig.rotation = rotation(0.0, 0.0, 0.0);
    case.rig.translation = [x, y, 1.0];
    case.rig.baseline = norm(&case.rig.translation);
    let unit = [x, y, 1.0].map(|value| value / case.rig.baseline);
    case.rig.basis = tangent_basis(&unit);
    for _ in 0..n {
        let far = source.between(1.0, 9.0);
        let correspondence = observed(source, &case.rig, [x * far, y * far, far], 0.5);
        case.push(correspondence);
    }
    case
}

/// Correspondences 2^14 to 2^28 times as far away as a plate.
fn far(source: &mut Source, n: usize) -> Case {
    let mut case = Case::new(rig(source), damping(source));
    let factor = two_to(14 + source.below(15) as i64);
    for point in grid(source, n) {
        let place = point.map(|value| value * factor);
        let correspondence = observed(source, &case.rig, place, 0.5);
        case.push(correspondence);
    }
    case
}

/// Small whole numbers, positive where a whole step asks for it.
fn whole(source: &mut Source, case: &mut Case) {
    case.places().into_iter().for_each(|v| *v = source.small());
    case.damping = source.below(3) as f64;
    case.rig.baseline = 1.0 + source.below(3) as f64;
    for value in &mut case.inverse_deviations {
        *value = 1.0 + source.below(3) as f64;
    }
    if source.once_in(2) {
        case.rig.rotation = rotation(0.0, 0.0, 0.0);
    }
    case.rig.translation[2] = source.below(3) as f64;
    for depth in case.points.iter_mut().skip(2).step_by(3) {
        *depth = 1.0 + source.below(4) as f64;
    }
}

fn equal_points(source: &mut Source, n: usize) -> Case {
    let mut case = Case::new(rig(source), damping(source));
    let point = [source.between(-1.0, 1.0), 0.5, source.between(4.0, 8.0)];
    for _ in 0..n {
        let correspondence = observed(source, &case.rig, point, 0.5);
        case.push(correspondence);
    }
    case
}

/// Scales focal lengths, deviations, or points with translation and baseline.
fn scale(source: &mut Source, case: &mut Case) {
    let factor = source.power();
    let rig = &mut case.rig;
    match source.below(3) {
        0 => rig
            .cameras
            .as_flattened_mut()
            .iter_mut()
            .for_each(|v| *v *= factor),
        1 => case
            .inverse_deviations
            .iter_mut()
            .for_each(|v| *v *= factor),
        _ => {
            rig.translation.iter_mut().for_each(|v| *v *= factor);
            rig.baseline *= factor;
            case.points.iter_mut().for_each(|v| *v *= factor);
        }
    }
}

/// A plate of `n` correspondences of any sort: sound, faulty, or with damaged numbers.
pub fn any_problem(source: &mut Source, n: usize) -> Case {
    let mut case = if source.once_in(2) {
        problem(source, n)
    } else {
        let fault = FAULTS[source.below(FAULTS.len())];
        faulty(source, n, fault)
    };
    if source.once_in(3) {
        source.damage(&mut case.places());
    }
    case
}

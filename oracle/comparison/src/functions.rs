//! The functions that are compared. A new one is a file here and its name below.

use crate::function::Function;

macro_rules! functions {
    ($($name:ident)*) => {
        $(pub mod $name;)*
        pub const ALL: &[&Function] = &[$(&$name::FUNCTION),*];
    };
}

functions! {
    sqrt
    abs
    recip
    max
    min
    is_finite
    to_bits
    from_bits
    pixel_projection
    damping_diagonal
    damped_matrix
    factor_damped
    factor_new
    factor_solve
    reciprocal_condition_number
    solve_positive_definite
    linearize_point
    system_new
    system_add
    system_finish_damping
    system_is_valid
    system_scaled_gradient_inf_norm
    system_predicted_reduction
    point_step_with_damping_norm
    step
    limit_pose_step
    write_list
}

/// What a sample has lines of: a function whose arguments have one length each, or the whole step
/// of five points.
pub fn sampled(function: &'static Function) -> Option<&'static Function> {
    if function.name == step::FUNCTION.name {
        return Some(&step::FIVE_POINTS);
    }
    (!function.is_open()).then_some(function)
}

#[cfg(test)]
mod tests {
    use super::*;
    use crate::function::Answer;
    use crate::input::Input;
    use crate::lengths;
    use crate::tally::Tally;

    const CASES: u64 = 4000;

    /// The oracle's answers to the seeded cases.
    fn tally(function: &Function) -> Tally {
        let mut tally = Tally::default();
        for case in function.walked()..function.count(CASES) {
            let input = function.input(3, case);
            let answer = (function.oracle)(&input);
            tally.count(&answer);
            tally.ruled += u64::from(function.is_ruled(&input, &answer));
        }
        tally
    }

    /// Some matrices do not factor at a damping that row 3 refuses, so that it
    /// shows which row comes first.
    #[test]
    fn rows_3_and_10_meet() {
        let function = &factor_new::FUNCTION;
        let meet = |input: &Input| {
            let refused = (function.oracle)(input) == Answer::row(3);
            refused && oracle::point_block::new(&input.numbers(0), 1.0).is_none()
        };
        let inputs = (0..CASES).map(|case| function.input(3, case));
        assert!(inputs.filter(meet).count() >= CASES as usize / 100);
    }

    /// A damping that row 3 refuses also comes to systems that rows 12 and 13
    /// would refuse.
    #[test]
    fn row_3_meets_rows_12_and_13() {
        let function = &system_add::FUNCTION;
        let inputs: Vec<_> = (0..CASES).map(|case| function.input(3, case)).collect();
        for row in [12, 13] {
            let meet = |input: &&Input| {
                let mut sound = (*input).clone();
                sound.0[3] = vec![0];
                let refused = (function.oracle)(input) == Answer::row(3);
                refused && (function.oracle)(&sound) == Answer::row(row)
            };
            assert!(inputs.iter().filter(meet).count() >= CASES as usize / 100);
        }
    }

    /// Row 2 comes up in the walk of the whole step alone, beside results with
    /// the most points.
    #[test]
    fn many_points_are_stepped_or_refused() {
        let function = &step::FUNCTION;
        let mut tally = Tally::default();
        for case in 0..function.walked() {
            let input = function.input(3, case);
            let answer = (function.oracle)(&input);
            let many = input.0[3].len() > 65_535;
            assert!(!(many && matches!(answer, Answer::Result(_))));
            tally.count(&answer);
        }
        assert!(tally.results >= 4, "{tally}");
        assert_eq!(tally.refused.get(&2), Some(&7), "{tally}");
    }

    /// Results and each row have at least a tenth of the cases, or half of an
    /// even share where there are many rows; the rule for zeros has a fiftieth
    /// where it can be seen.
    #[test]
    fn each_answer_has_its_share() {
        for function in ALL {
            let tally = tally(function);
            let name = function.name;
            let share = CASES / 10.max(2 * (1 + function.rows.len() as u64));
            assert!(tally.results >= share, "{name}: {tally}");
            for row in function.rows {
                let count = tally.refused.get(row).copied().unwrap_or(0);
                assert!(count >= share, "{name}: {tally}");
            }
            assert_eq!(tally.refused.len(), function.rows.len(), "{name}: {tally}");
            let least = if function.plain.is_some() {
                CASES / 50
            } else {
                0
            };
            assert!(tally.ruled >= least, "{name}: {tally}");
        }
    }

    /// Seed, name and case decide an input.
    #[test]
    fn inputs_come_from_the_seed() {
        for function in ALL {
            let inputs = |seed| {
                let cases = function.walked()..function.count(50);
                cases
                    .map(|case| function.input(seed, case))
                    .collect::<Vec<_>>()
            };
            assert_eq!(inputs(5), inputs(5));
            assert_ne!(inputs(5), inputs(6));
        }
        assert_ne!(ALL[3].input(5, 0), ALL[4].input(5, 0));
    }

    /// No length of a wrong input is that of the right one throughout.
    #[test]
    fn wrong_lengths_are_wrong() {
        for function in ALL {
            let right = function.input(7, function.walked());
            let sizes = |input: &crate::input::Input| -> Vec<usize> {
                input.0.iter().map(Vec::len).collect()
            };
            for wrong in lengths::wrong(function, &right) {
                assert_ne!(sizes(&wrong), sizes(&right));
            }
        }
    }
}

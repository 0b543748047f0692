//! Each refusal row alone and with every other: the first of the two is given.

use oracle::generate::Source;
use oracle::optimizer::whole_step;
use oracle::refused::{ROWS, refused};

/// The row that refuses a plate in which the conditions of both hold.
fn given(source: &mut Source, first: u32, second: u32) -> Option<u32> {
    let case = refused(source, &[first, second])?;
    let room = 3 * case.count();
    Some(whole_step(&case.problem(), room).map_or_else(|refusal| refusal.number, |_| 0))
}

#[test]
fn the_first_of_two_rows_is_given() {
    let mut source = Source::new(3);
    for (place, &first) in ROWS.iter().enumerate() {
        for &second in &ROWS[place..] {
            let cases = if first == 2 || second == 2 { 2 } else { 200 };
            for _ in 0..cases {
                let expected = (first, second) != (2, 7);
                let row = given(&mut source, first, second);
                assert_eq!(row, expected.then_some(first), "{first} and {second}");
            }
        }
    }
}

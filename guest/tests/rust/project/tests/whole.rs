//! The crate as another one sees it.

#[test]
fn none() {
    assert_eq!(project::sum_of_squares(&[]), 0);
}

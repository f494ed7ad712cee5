// What the Rust's functions need around them to stand alone, and the functions themselves, unchanged, as oracle/build took them out of a checkout.
use std::cmp::{max, min};
use std::collections::VecDeque;

mod safe_board {
    pub trait BoardSize {
        fn get_row(&self) -> usize;
        fn get_column(&self) -> usize;
    }
    impl BoardSize for Vec<Vec<i32>> {
        fn get_row(&self) -> usize {
            self.len()
        }
        fn get_column(&self) -> usize {
            self[0].len()
        }
    }
}
const ENUM_LIMIT: usize = 99999;

/// The rows of itertools' product in its order, the last factor fastest; one empty row for no factors.
trait Product: Iterator + Sized
where
    Self::Item: Iterator + Clone,
    <Self::Item as Iterator>::Item: Clone,
{
    fn multi_cartesian_product(self) -> std::vec::IntoIter<Vec<<Self::Item as Iterator>::Item>> {
        let mut rows = vec![vec![]];
        for factor in self {
            let mut next = vec![];
            for row in &rows {
                for value in factor.clone() {
                    let mut longer = row.clone();
                    longer.push(value);
                    next.push(longer);
                }
            }
            rows = next;
        }
        rows.into_iter()
    }
}
impl<I: Iterator> Product for I
where
    I::Item: Iterator + Clone,
    <I::Item as Iterator>::Item: Clone,
{
}

include!(concat!(env!("ORACLE_BUILD"), "/rust_utils.rs"));
include!(concat!(env!("ORACLE_BUILD"), "/rust_algorithms.rs"));

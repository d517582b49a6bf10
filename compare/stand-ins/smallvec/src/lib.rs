//! Stands in for `smallvec`: a plain vector.

pub type SmallVec<T> = Vec<T>;

#[macro_export]
macro_rules! smallvec {
    ($($x:expr),* $(,)?) => { vec![$($x),*] };
}

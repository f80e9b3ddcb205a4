//! Records that several users share.

/// Where this run stands in `all`; what is not there yet is added at the end.
/// It never moves: the first place found is found again later.
pub fn place<T: Clone + PartialEq>(all: &mut Vec<T>, run: &[T]) -> usize {
    if run.is_empty() {
        return 0;
    }
    if let Some(start) = all.windows(run.len()).position(|window| window == run) {
        return start;
    }
    // The end of what is there may be the run's beginning.
    let longest = all.len().min(run.len());
    let shared = (0..=longest).rev().find(|&n| all.ends_with(&run[..n]));
    let shared = shared.unwrap_or(0);
    let start = all.len() - shared;
    all.extend_from_slice(&run[shared..]);
    start
}

#[cfg(test)]
mod tests {
    use super::place;

    #[test]
    fn shares() {
        let mut all = Vec::new();
        assert_eq!(place(&mut all, b"abc"), 0);
        assert_eq!(place(&mut all, b""), 0);
        assert_eq!(place(&mut all, b"bc"), 1);
        assert_eq!(place(&mut all, b"cd"), 2);
        assert_eq!(place(&mut all, b"x"), 4);
        assert_eq!(place(&mut all, b"abcdx!"), 0);
        assert_eq!(all, b"abcdx!");
    }
}

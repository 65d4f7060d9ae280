//! Inputs: well-formed ones, and the same damaged around every boundary.

pub mod arrays;
pub mod blobs;
pub mod edits;
pub mod latin9;
pub mod lists;
pub mod payloads;
pub mod stores;
pub mod surrogates;
pub mod text;

/// Calls `each` on every list of `len` items of `alphabet`, of which a worker
/// takes every `step`th from `first` on.
pub fn every<T: Copy>(
    alphabet: &[T],
    len: usize,
    (first, step): (usize, usize),
    mut each: impl FnMut(&[T]),
) {
    let all = alphabet.len().pow(len as u32);
    let mut list = vec![alphabet[0]; len];
    for number in (first..all).step_by(step) {
        let mut rest = number;
        for item in &mut list {
            *item = alphabet[rest % alphabet.len()];
            rest /= alphabet.len();
        }
        each(&list);
    }
}

#[cfg(test)]
mod tests {
    use super::*;

    #[test]
    fn every_list_once() {
        let mut seen = Vec::new();
        for worker in 0..2 {
            every(&[1, 2, 3], 3, (worker, 2), |list| seen.push(list.to_vec()));
        }
        assert_eq!(seen.len(), 27);
        seen.sort();
        seen.dedup();
        assert_eq!(seen.len(), 27);
        let mut none = 0;
        every(&[1, 2, 3], 0, (0, 1), |list| none += 1 + list.len());
        assert_eq!(none, 1);
    }
}

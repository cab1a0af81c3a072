//! Every set of some causes.

/// Each set holds its causes in their order, and the first set holds none.
pub fn every_set<T: Copy>(causes: &[T]) -> impl Iterator<Item = Vec<T>> + '_ {
    (0..1usize << causes.len()).map(|set| {
        let chosen = causes.iter().enumerate().filter(|(k, _)| set >> k & 1 == 1);
        chosen.map(|(_, &cause)| cause).collect()
    })
}

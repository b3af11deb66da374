//! The cases of a test, and what they must have met.

use crate::random::{seed, Naming, Random};
use std::collections::BTreeMap;
use std::fmt::Display;

/// Makes so many cases, and up to `further` more as long as one of `owed` has not been met. Fails if one never was, or if a case meets
/// anything else.
pub fn meet<What: Ord + Display>(
    stream: &'static str,
    [wanted, further]: [u64; 2],
    owed: impl IntoIterator<Item = What>,
    mut make: impl FnMut(&mut Random) -> Vec<What>,
) {
    let mut seen: BTreeMap<What, u64> = owed.into_iter().map(|what| (what, 0)).collect();
    let mut made = 0;
    while made < wanted || made < wanted + further && seen.values().any(|count| *count == 0) {
        let _naming = Naming(stream, made);
        for what in make(&mut Random::new(seed(), stream, made)) {
            match seen.get_mut(&what) {
                Some(count) => *count += 1,
                None => panic!("{stream}: {what} is none of what can be met"),
            }
        }
        made += 1;
    }
    seen.iter().for_each(|(what, count)| println!("{stream:20} {count:7} {what}"));
    println!("{stream:20} {made:7} cases");
    assert!(seen.values().all(|count| *count > 0), "{stream}: something was never met");
}

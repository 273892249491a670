//! Children of a family by their label values.

use std::collections::HashMap;
use std::hash::{BuildHasherDefault, Hasher};

/// The keys are hashes already.
#[derive(Default)]
pub(crate) struct AsItIs(u64);

impl Hasher for AsItIs {
    fn finish(&self) -> u64 {
        self.0
    }
    fn write(&mut self, bytes: &[u8]) {
        for byte in bytes {
            self.0 = self.0.rotate_left(8) ^ u64::from(*byte);
        }
    }
    fn write_u64(&mut self, key: u64) {
        self.0 = key;
    }
}

/// The values of a child, and the child.
type Child<T> = (Box<[String]>, T);

/// Each child once. Two of one hash are told apart by their values.
pub(crate) struct Children<T>(HashMap<u64, Vec<Child<T>>, BuildHasherDefault<AsItIs>>);

impl<T> Default for Children<T> {
    fn default() -> Children<T> {
        Children(HashMap::default())
    }
}

/// A hash of label values (FNV-1a), where a byte that no text has ends each.
pub(crate) fn hash(values: &[&str]) -> u64 {
    let mut hash = 0xcbf2_9ce4_8422_2325u64;
    for value in values {
        for byte in value.bytes().chain([0xff]) {
            hash = (hash ^ u64::from(byte)).wrapping_mul(0x0100_0000_01b3);
        }
    }
    hash
}

fn is_of<T>(child: &Child<T>, values: &[&str]) -> bool {
    child.0.len() == values.len() && child.0.iter().zip(values).all(|(own, value)| own == value)
}

impl<T> Children<T> {
    pub fn get(&self, hash: u64, values: &[&str]) -> Option<&T> {
        let child = self.0.get(&hash)?.iter().find(|child| is_of(child, values))?;
        Some(&child.1)
    }

    /// The child of these values, which is made where there is none.
    pub fn get_or_insert(&mut self, values: &[&str], make: impl FnOnce() -> T) -> &mut T {
        let all = self.0.entry(hash(values)).or_default();
        let at = match all.iter().position(|child| is_of(child, values)) {
            Some(at) => at,
            None => {
                all.push((values.iter().map(|value| value.to_string()).collect(), make()));
                all.len() - 1
            }
        };
        &mut all[at].1
    }

    pub fn remove(&mut self, values: &[&str]) -> Option<T> {
        let all = self.0.get_mut(&hash(values))?;
        let at = all.iter().position(|child| is_of(child, values))?;
        Some(all.swap_remove(at).1)
    }

    pub fn iter(&self) -> impl Iterator<Item = (&[String], &T)> {
        self.0.values().flatten().map(|child| (&*child.0, &child.1))
    }
}

#[cfg(test)]
mod tests {
    use super::*;

    /// Values are told apart where their joined texts are one, and each is there once.
    #[test]
    fn each_once() {
        assert_ne!(hash(&["ab", "c"]), hash(&["a", "bc"]));
        let mut all = Children::default();
        *all.get_or_insert(&["ab", "c"], || 0) += 1;
        *all.get_or_insert(&["a", "bc"], || 0) += 2;
        *all.get_or_insert(&["ab", "c"], || 0) += 4;
        assert_eq!(all.get(hash(&["ab", "c"]), &["ab", "c"]), Some(&5));
        assert_eq!(all.get(hash(&["ab", "c"]), &["a", "bc"]), None);
        assert_eq!(all.iter().count(), 2);
        assert_eq!((all.remove(&["a", "bc"]), all.remove(&["a", "bc"])), (Some(2), None));
    }
}

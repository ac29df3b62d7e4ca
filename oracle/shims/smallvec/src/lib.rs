//! Shim of `smallvec::SmallVec`: N items inline, the rest behind, in order.
//! Only what `assignment_state/membership.rs` uses: collect, `&v`, `v`.
pub trait Array {
    type Item;
    type Store: Default2 + AsRef<[Option<Self::Item>]> + AsMut<[Option<Self::Item>]> + IntoIterator<Item = Option<Self::Item>>;
}
pub trait Default2 {
    fn empty() -> Self;
}
impl<T, const N: usize> Default2 for [Option<T>; N] {
    #[inline]
    fn empty() -> Self {
        std::array::from_fn(|_| None)
    }
}
impl<T, const N: usize> Array for [T; N] {
    type Item = T;
    type Store = [Option<T>; N];
}

pub struct SmallVec<A: Array> {
    inline: A::Store,
    len: usize,
    spill: Vec<A::Item>,
}

impl<A: Array> FromIterator<A::Item> for SmallVec<A> {
    #[inline]
    fn from_iter<I: IntoIterator<Item = A::Item>>(items: I) -> Self {
        let mut inline = A::Store::empty();
        let mut len = 0;
        let mut spill = Vec::new();
        for item in items {
            let slots = inline.as_mut();
            if len < slots.len() {
                slots[len] = Some(item);
                len += 1;
            } else {
                spill.push(item);
            }
        }
        SmallVec { inline, len, spill }
    }
}

impl<'a, A: Array> IntoIterator for &'a SmallVec<A> {
    type Item = &'a A::Item;
    type IntoIter = std::iter::Chain<std::iter::Flatten<std::slice::Iter<'a, Option<A::Item>>>, std::slice::Iter<'a, A::Item>>;
    #[inline]
    fn into_iter(self) -> Self::IntoIter {
        self.inline.as_ref()[..self.len].iter().flatten().chain(self.spill.iter())
    }
}

impl<A: Array> IntoIterator for SmallVec<A> {
    type Item = A::Item;
    type IntoIter =
        std::iter::Chain<std::iter::Flatten<std::iter::Take<<A::Store as IntoIterator>::IntoIter>>, std::vec::IntoIter<A::Item>>;
    #[inline]
    fn into_iter(self) -> Self::IntoIter {
        self.inline.into_iter().take(self.len).flatten().chain(self.spill)
    }
}

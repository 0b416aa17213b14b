//! A buffer that is lent to a call, with sentinels around it.

const MARGIN: usize = 32;
const SENTINEL: u8 = 0xA5;

#[derive(Clone, PartialEq, Eq)]
pub struct Lent<T> {
    all: Vec<T>,
}

impl<T: Copy + PartialEq + From<u8>> Lent<T> {
    pub fn new(content: &[T]) -> Lent<T> {
        let mut all = vec![T::from(SENTINEL); MARGIN];
        all.extend_from_slice(content);
        all.resize(all.len() + MARGIN, T::from(SENTINEL));
        Lent { all }
    }

    /// The part that is lent.
    pub fn part(&self) -> &[T] {
        &self.all[MARGIN..self.all.len() - MARGIN]
    }

    pub fn part_mut(&mut self) -> &mut [T] {
        let end = self.all.len() - MARGIN;
        &mut self.all[MARGIN..end]
    }

    /// Whether the part still holds this and the sentinels stand.
    pub fn holds(&self, content: &[T]) -> bool {
        let is_sentinel = |place: &T| *place == T::from(SENTINEL);
        self.part() == content
            && self.all[..MARGIN].iter().all(is_sentinel)
            && self.all[self.all.len() - MARGIN..].iter().all(is_sentinel)
    }
}

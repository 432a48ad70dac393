//! Memory to lend: full of noise, with guard words around it that must stay.
use oracle::rng::Rng;

/// A lent slice between two guards.
pub struct Lent<T> {
    all: Vec<T>,
    guard: usize,
    before: Vec<T>,
    behind: Vec<T>,
}

/// Numbers that noise can be made of.
pub trait Noise: Copy + PartialEq {
    fn of(random: u64) -> Self;
}

impl Noise for u8 {
    fn of(random: u64) -> u8 {
        random as u8
    }
}

impl Noise for u32 {
    fn of(random: u64) -> u32 {
        random as u32
    }
}

impl Noise for u64 {
    fn of(random: u64) -> u64 {
        random
    }
}

impl<T: Noise> Lent<T> {
    /// So many numbers of noise.
    pub fn noise(rng: &mut Rng, length: usize) -> Lent<T> {
        let guard = rng.range(16, 31);
        let all: Vec<T> = (0..length + 2 * guard).map(|_| T::of(rng.next())).collect();
        let (before, behind) = (all[..guard].to_vec(), all[guard + length..].to_vec());
        Lent { all, guard, before, behind }
    }

    /// These numbers.
    pub fn holding(rng: &mut Rng, numbers: &[T]) -> Lent<T> {
        let mut lent = Lent::noise(rng, numbers.len());
        lent.slice_mut().copy_from_slice(numbers);
        lent
    }

    pub fn slice(&self) -> &[T] {
        &self.all[self.guard..self.all.len() - self.guard]
    }

    pub fn slice_mut(&mut self) -> &mut [T] {
        let end = self.all.len() - self.guard;
        &mut self.all[self.guard..end]
    }

    /// The guards are as they were.
    pub fn is_guarded(&self) -> bool {
        self.all.starts_with(&self.before) && self.all.ends_with(&self.behind)
    }
}

//! Buffers as they are lent: with guard bytes on both sides, at any alignment, a copy for each side.

use std::array;
use std::hint::black_box;

use inputs::Prng;

const GUARD: usize = 64;

/// The sides beside the proved library.
pub const OTHERS: [&str; 2] = ["independent", "fastest"];

/// A buffer between guard bytes.
pub struct Guarded {
    bytes: Vec<u8>,
    start: usize,
    end: usize,
}

impl Guarded {
    fn new(content: &[u8], guard: usize, shift: usize) -> Guarded {
        let start = guard + shift;
        let end = start + content.len();
        let mut bytes = vec![0; end + guard];
        for (at, byte) in bytes.iter_mut().enumerate() {
            *byte = pattern(at);
        }
        bytes[start..end].copy_from_slice(content);
        Guarded { bytes, start, end }
    }

    pub fn get(&self) -> &[u8] {
        &self.bytes[self.start..self.end]
    }

    pub fn get_mut(&mut self) -> &mut [u8] {
        &mut self.bytes[self.start..self.end]
    }

    /// Where the first guard byte that changed stands, from the buffer's first byte.
    fn broken_guard(&self) -> Option<isize> {
        let mut guards = (0..self.start).chain(self.end..self.bytes.len());
        let at = guards.find(|&at| self.bytes[at] != pattern(at))?;
        Some(at as isize - self.start as isize)
    }
}

/// Half of the buffers begin where an allocation may, the others anywhere, odd places included. Bare
/// ones begin where their allocation does; they draw all the same, so that a round's inputs stay.
fn shift(bare: bool, prng: &mut Prng) -> usize {
    let drawn = if prng.one_in(2) { 0 } else { prng.below(16) };
    if bare {
        0
    } else {
        drawn
    }
}

fn pattern(at: usize) -> u8 {
    (at as u8).wrapping_mul(151) ^ 0x5b
}

/// One buffer as the sides are lent it: a copy each, and what it held before the call. Beside the proved
/// library it is lent to the first `N` of [`OTHERS`].
pub struct Lent<const N: usize = { OTHERS.len() }> {
    pub proved: Guarded,
    pub others: [Guarded; N],
    before: Vec<u8>,
}

impl<const N: usize> Lent<N> {
    pub fn new(content: &[u8], bare: bool, prng: &mut Prng) -> Lent<N> {
        let guard = if bare { 0 } else { GUARD };
        let proved = Guarded::new(content, guard, shift(bare, prng));
        let shift = shift(bare, prng);
        let others = array::from_fn(|_| Guarded::new(content, guard, shift));
        Lent { proved, others, before: content.to_vec() }
    }

    pub fn before(&self) -> &[u8] {
        &self.before
    }

    /// What is wrong after a call, if anything. Where the buffer may not have changed it is compared
    /// with what it held, else the proved library's copy with the others'.
    pub fn fault(&mut self, may_change: bool) -> Option<String> {
        // A call that was lent the buffer shared may have written it all the same.
        let Lent { proved, others, before } = black_box(self);
        if let Some(at) = proved.broken_guard() {
            return Some(format!("the proved library wrote outside, at {at}"));
        }
        for (name, other) in OTHERS.iter().zip(others) {
            if let Some(at) = other.broken_guard() {
                return Some(format!("{name} wrote outside, at {at}"));
            }
            if let Some(at) = differing(proved.get(), other.get()) {
                return Some(format!("proved and {name} differ {at}"));
            }
        }
        let changed = if may_change { None } else { differing(before, proved.get()) };
        changed.map(|at| format!("refused or shared, but changed {at}"))
    }

    /// Takes the bytes as they are now for those before the next call. After a difference all sides go
    /// on from the proved library's, so that one fault is not reported again and again.
    pub fn settle(&mut self) {
        self.before.copy_from_slice(self.proved.get());
        for other in &mut self.others {
            other.get_mut().copy_from_slice(&self.before);
        }
    }

    /// Changes the bytes between two calls, for all sides.
    pub fn change(&mut self, change: impl FnOnce(&mut [u8])) {
        change(self.proved.get_mut());
        self.settle();
    }
}

fn differing(one: &[u8], other: &[u8]) -> Option<String> {
    if one == other {
        return None;
    }
    let at = one.iter().zip(other).position(|(a, b)| a != b)?;
    Some(format!("from byte {at}: {:02x} and {:02x}", one[at], other[at]))
}

#[cfg(test)]
mod tests {
    use super::*;

    fn lent() -> Lent {
        Lent::new(&[7; 60], false, &mut Prng::new(1, 1))
    }

    #[test]
    fn writes_beside_a_buffer_are_seen() {
        for past in [true, false] {
            let mut buffer = lent();
            let side = &mut buffer.proved;
            let at = if past { side.end } else { side.start - 1 };
            side.bytes[at] ^= 1;
            let fault = buffer.fault(true).unwrap();
            assert!(fault.contains("outside"), "{fault}");
        }
    }

    #[test]
    fn bare_buffers_fill_their_allocations() {
        let (mut bare, mut guarded) = (Prng::new(1, 1), Prng::new(1, 1));
        for length in 0..100 {
            let content = vec![7; length];
            let lent: Lent = Lent::new(&content, true, &mut bare);
            let _: Lent = Lent::new(&content, false, &mut guarded);
            for side in [&lent.proved, &lent.others[0], &lent.others[1]] {
                assert_eq!((side.start, side.end), (0, side.bytes.capacity()));
            }
        }
        assert_eq!(bare.draw(), guarded.draw());
    }

    #[test]
    fn a_change_on_one_side_is_seen() {
        let mut buffer = lent();
        assert_eq!(buffer.fault(false), None);
        let sides: [fn(&mut Lent) -> &mut Guarded; 3] =
            [|lent| &mut lent.proved, |lent| &mut lent.others[0], |lent| &mut lent.others[1]];
        for side in sides {
            side(&mut buffer).get_mut()[59] ^= 8;
            assert!(buffer.fault(true).unwrap().contains("from byte 59"));
            buffer.settle();
            assert_eq!(buffer.fault(true), None);
        }
    }

    #[test]
    fn a_change_on_all_sides_is_seen_where_none_may_be() {
        let mut buffer = lent();
        buffer.proved.get_mut()[0] = 8;
        for other in &mut buffer.others {
            other.get_mut()[0] = 8;
        }
        assert_eq!(buffer.fault(true), None);
        assert!(buffer.fault(false).unwrap().contains("changed"));
    }
}

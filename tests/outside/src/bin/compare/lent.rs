//! What is lent to a call, between guards: afterwards the whole region is held to what it must be.

use crate::random::Random;

pub struct Lent<T> {
    region: Vec<T>,
    before: Vec<T>,
    start: usize,
    len: usize,
}

impl<T: Copy + PartialEq> Lent<T> {
    fn between(content: &[T], front: Vec<T>, back: Vec<T>) -> Lent<T> {
        let region = [&front[..], content, &back[..]].concat();
        Lent { before: region.clone(), region, start: front.len(), len: content.len() }
    }

    pub fn len(&self) -> usize {
        self.len
    }

    pub fn pointer(&self) -> *const T {
        self.region[self.start..].as_ptr()
    }

    pub fn pointer_mut(&mut self) -> *mut T {
        self.region[self.start..].as_mut_ptr()
    }

    pub fn content(&self) -> &[T] {
        &self.region[self.start..self.start + self.len]
    }

    /// The content as it was lent.
    pub fn lent(&self) -> &[T] {
        &self.before[self.start..self.start + self.len]
    }

    /// Where the content differs first from what is due: the index, what is due there and what was found.
    pub fn first_difference(&self, due: &[T]) -> Option<(usize, T, T)> {
        assert_eq!(due.len(), self.len);
        let mut pairs = due.iter().zip(self.content()).enumerate();
        pairs.find(|(_, (due, found))| due != found).map(|(at, (due, found))| (at, *due, *found))
    }

    pub fn guards_kept(&self) -> bool {
        let end = self.start + self.len;
        self.region[..self.start] == self.before[..self.start] && self.region[end..] == self.before[end..]
    }

    /// Nothing has changed, guards and content.
    pub fn untouched(&self) -> bool {
        self.region == self.before
    }
}

impl Lent<u8> {
    /// Bytes at any alignment. The guards are zeros, ones, noise, or records that would go on.
    pub fn bytes(random: &mut Random, content: &[u8]) -> Lent<u8> {
        Lent::among(random, content, &[&[0], &[255], &[2, 0, 2, 0], &[4, 0, 1, 0, 5, 0], &[2, 0, 1, 0]])
    }

    /// A text at any alignment. The guards are noise, or would go on with a text or end it.
    pub fn text(random: &mut Random, content: &[u8]) -> Lent<u8> {
        Lent::among(random, content, &[&[0], b" ", b"0", b"9", b"e", b">", b")", b"*", b"/left", b"true", b" or true)"])
    }

    fn among(random: &mut Random, content: &[u8], patterns: &[&[u8]]) -> Lent<u8> {
        let front = random.between(16, 31);
        let [front, back] = [front, 24].map(|len| {
            if random.chance(1, 4) {
                random.bytes(len)
            } else {
                let pattern = random.pick(patterns);
                pattern.iter().copied().cycle().take(len).collect()
            }
        });
        Lent::between(content, front, back)
    }
}

impl Lent<u64> {
    /// Words between words of noise.
    pub fn words(random: &mut Random, content: &[u64]) -> Lent<u64> {
        let [front, back] = [(); 2].map(|_| (0..4).map(|_| random.next()).collect());
        Lent::between(content, front, back)
    }
}

impl Lent<u32> {
    /// Numbers between numbers of noise.
    pub fn numbers(random: &mut Random, content: &[u32]) -> Lent<u32> {
        let [front, back] = [(); 2].map(|_| (0..4).map(|_| random.next() as u32).collect());
        Lent::between(content, front, back)
    }
}

//! The ring of the input, as our byte store holds it: an area, its first waiting byte, a count. And the bytes left of each frame, of
//! which the Rust tells nothing: by them the frames are counted that a pop comes to.

use std::collections::VecDeque;

pub struct Ring {
    area: Vec<u8>,
    start: usize,
    waiting: usize,
    /// The frames that wait, in Frames.
    frames: Option<VecDeque<usize>>,
}

impl Ring {
    pub fn new(size: usize, in_frames: bool) -> Self {
        Self {
            area: vec![0; size],
            start: 0,
            waiting: 0,
            frames: in_frames.then(VecDeque::new),
        }
    }

    /// Appends bytes that the runner kept, up to the end of the area and on from its start.
    pub fn push(&mut self, mut bytes: &[u8]) {
        if let Some(frames) = &mut self.frames {
            frames.push_back(bytes.len());
        }
        while !bytes.is_empty() {
            let end = (self.start + self.waiting) % self.area.len();
            let (piece, rest) = bytes.split_at(bytes.len().min(self.area.len() - end));
            self.area[end..end + piece.len()].copy_from_slice(piece);
            self.waiting += piece.len();
            bytes = rest;
        }
    }

    /// Removes the first bytes, at most what waits, and tells how many frames that came to with bytes still to take. A ring that this
    /// drains keeps its start.
    pub fn pop(&mut self, count: usize) -> usize {
        let count = count.min(self.waiting);
        self.start = (self.start + count) % self.area.len();
        self.waiting -= count;
        self.frames.as_mut().map_or(0, |frames| taken(frames, count))
    }

    /// Removes everything, as the input closes.
    pub fn clear(&mut self) {
        (self.start, self.waiting) = (0, 0);
        if let Some(frames) = &mut self.frames {
            frames.clear();
        }
    }

    pub fn waiting(&self) -> usize {
        self.waiting
    }

    /// The waiting bytes from the ring's head to the end of its area.
    pub fn pending(&self) -> &[u8] {
        let end = self.area.len().min(self.start + self.waiting);
        &self.area[self.start..end]
    }
}

/// Takes the first bytes from the frames, which hold as many, and tells how many frames begin before the last of these bytes: they
/// are come to with bytes still to take. (By where each begins, where the runner goes by what is left to take.)
fn taken(frames: &mut VecDeque<usize>, count: usize) -> usize {
    let (mut came, mut end) = (0, 0);
    while end < count {
        end += frames[came];
        came += 1;
    }
    frames.drain(..came);
    if end > count {
        frames.push_front(end - count);
    }
    came
}

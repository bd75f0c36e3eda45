//! An image as it is before a call, put back between calls where the call changes it and nowhere else: copying a whole
//! header or map would cost more than many a call.

pub struct PutBack {
    before: Vec<u8>,
    changed: Vec<usize>,
}

const NUMBER: usize = 8;

impl PutBack {
    pub fn to(image: &[u8]) -> PutBack {
        PutBack {
            before: image.to_vec(),
            changed: Vec::new(),
        }
    }

    /// After a first call: the numbers that it changed are those that every later call changes.
    pub fn learn(&mut self, image: &[u8]) {
        let numbers = image.chunks(NUMBER).zip(self.before.chunks(NUMBER));
        self.changed = (0..)
            .step_by(NUMBER)
            .zip(numbers)
            .filter(|(_, (now, before))| now != before)
            .map(|(at, _)| at)
            .collect();
    }

    pub fn put_back(&self, image: &mut [u8]) {
        for &at in &self.changed {
            image[at..at + NUMBER].copy_from_slice(&self.before[at..at + NUMBER]);
        }
        debug_assert_eq!(image, self.before);
    }
}

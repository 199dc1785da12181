//! Bytes to lend, between guards that nobody may touch.

const GUARD: usize = 32;

/// Bytes between two guards.
pub struct Area {
    bytes: Vec<u8>,
    fill: u8,
}

impl Area {
    /// An output of so many bytes, filled like its guards.
    pub fn out(length: usize, fill: u8) -> Area {
        Area { bytes: vec![fill; length + 2 * GUARD], fill }
    }

    /// Bytes to be changed in place.
    pub fn holding(content: &[u8], fill: u8) -> Area {
        let mut area = Area::out(content.len(), fill);
        area.lent().copy_from_slice(content);
        area
    }

    /// What is lent.
    pub fn lent(&mut self) -> &mut [u8] {
        let end = self.bytes.len() - GUARD;
        &mut self.bytes[GUARD..end]
    }

    /// All of it with the guards, as it is.
    pub fn whole(&self) -> &[u8] {
        &self.bytes
    }

    /// All of it with the guards, as it is where the content starts with some bytes and is otherwise untouched.
    pub fn expected(&self, content: &[u8]) -> Vec<u8> {
        let mut bytes = vec![self.fill; self.bytes.len()];
        bytes[GUARD..GUARD + content.len()].copy_from_slice(content);
        bytes
    }
}

//! The slots of a stream run's answer by name, and what was written.

use reference::machine::FILLER;

use super::stream_gave::Gave;

impl Gave {
    /// The refusal's position.
    pub fn position(&self) -> u64 {
        self.slots[0]
    }

    pub fn units(&self) -> u64 {
        self.slots[1]
    }

    pub fn read(&self) -> usize {
        self.slots[2] as usize
    }

    pub fn written(&self) -> usize {
        self.slots[3] as usize
    }

    /// The number, sign-extended.
    pub fn word(&self) -> u64 {
        self.slots[4]
    }

    /// The bytes written.
    pub fn bytes(&self) -> &[u8] {
        &self.output[..self.written()]
    }

    /// What was written opens what the other run wrote, and the rest of the
    /// output is untouched.
    pub fn opens(&self, whole: &Gave) -> bool {
        let rest = &self.output[self.written()..];
        whole.bytes().starts_with(self.bytes()) && rest.iter().all(|&byte| byte == FILLER)
    }
}

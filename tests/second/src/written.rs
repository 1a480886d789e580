//! The cases of a case file: their bytes, and how many there are of each kind. Numbers have their most significant byte first.

const MOST_KINDS: usize = 11;

#[derive(Default)]
pub struct Written {
    pub bytes: Vec<u8>,
    counts: [usize; MOST_KINDS],
}

impl Written {
    /// A case begins: its kind, from 1 on, is its first byte.
    pub fn begin(&mut self, kind: u8) {
        self.bytes.push(kind);
        self.count(kind, 1);
    }

    pub fn count(&mut self, kind: u8, more: usize) {
        self.counts[usize::from(kind) - 1] += more;
    }

    pub fn append(&mut self, mut other: Written) {
        self.bytes.append(&mut other.bytes);
        self.counts.iter_mut().zip(other.counts).for_each(|(count, more)| *count += more);
    }

    pub fn byte(&mut self, number: u32) {
        self.bytes.push(u8::try_from(number).expect("a number of one byte"));
    }

    pub fn pair(&mut self, number: usize) {
        self.bytes.extend(u16::try_from(number).expect("a number of two bytes").to_be_bytes());
    }

    pub fn four(&mut self, number: u32) {
        self.bytes.extend(number.to_be_bytes());
    }

    pub fn eight(&mut self, number: u64) {
        self.bytes.extend(number.to_be_bytes());
    }

    /// A string: its length (2 bytes) and its bytes.
    pub fn string(&mut self, bytes: &[u8]) {
        self.pair(bytes.len());
        self.bytes.extend(bytes);
    }

    /// The whole file: a kind of 0 ends it.
    pub fn file(mut self) -> Vec<u8> {
        self.bytes.push(0);
        self.bytes
    }

    /// What the file's program prints where nothing differs, by the names of the kinds.
    pub fn summary(&self, names: &[&str]) -> String {
        let lines: String = names.iter().zip(self.counts).map(|(name, count)| format!("{name}: {count}\n")).collect();
        lines + "differences: 0\n"
    }
}

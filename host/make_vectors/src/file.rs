//! A vector file: big-endian words, and a text beside it that says how it was made.

use std::collections::BTreeMap;
use std::fs;
use std::io;
use std::path::Path;

use lists::List;

/// The bytes of a vector file.
#[derive(Default)]
pub struct File {
    bytes: Vec<u8>,
    records: usize,
    families: BTreeMap<&'static str, usize>,
}

impl File {
    /// Counts one more record.
    pub fn record(&mut self) -> &mut File {
        self.records += 1;
        self
    }

    /// Counts one more record, made from a list of a family.
    pub fn record_of(&mut self, family: &'static str) -> &mut File {
        *self.families.entry(family).or_default() += 1;
        self.record()
    }

    pub fn records(&self) -> usize {
        self.records
    }

    /// The bytes so far.
    #[cfg(test)]
    pub fn contents(&self) -> &[u8] {
        &self.bytes
    }

    pub fn word(&mut self, value: u32) -> &mut File {
        self.bytes(&value.to_be_bytes())
    }

    pub fn wide(&mut self, value: u64) -> &mut File {
        self.bytes(&value.to_be_bytes())
    }

    /// A float's bits, a NaN's as 7FC00000: for answers.
    pub fn float(&mut self, value: f32) -> &mut File {
        self.word(float::bits(value))
    }

    /// A float's own bits: for inputs.
    pub fn input(&mut self, value: f32) -> &mut File {
        self.word(value.to_bits())
    }

    pub fn bytes(&mut self, bytes: &[u8]) -> &mut File {
        self.bytes.extend_from_slice(bytes);
        self
    }

    /// A byte run: three lengths, configuration, calls, result, output.
    pub fn run(&mut self, list: &List, result: u32, output: &[u8]) -> &mut File {
        for length in [list.config.len(), list.calls.len(), output.len()] {
            self.word(length as u32);
        }
        self.bytes(&list.config)
            .bytes(&list.calls)
            .word(result)
            .bytes(output)
    }

    /// Writes NAME.bin and NAME.txt to `folder`.
    pub fn write(&self, folder: &Path, name: &str, how: &str) -> io::Result<()> {
        fs::create_dir_all(folder)?;
        fs::write(folder.join(format!("{name}.bin")), &self.bytes)?;
        let (records, size) = (self.records, self.bytes.len());
        let mut text = format!("{name}.bin: {records} records, {size} bytes, big-endian.\n{how}");
        if !self.families.is_empty() {
            text += "Records per family:\n";
        }
        for (family, count) in &self.families {
            text += &format!("  {family}: {count}\n");
        }
        fs::write(folder.join(format!("{name}.txt")), text)?;
        println!("{name}.bin: {records} records, {size} bytes");
        Ok(())
    }
}

//! Sheets: lists of commands for the batch call.
use crate::{IdIndex, TypeFormatterFlags, TypeIndex};

/// The longest name that a function command holds.
pub const NAME_WIDTH: usize = 16;

/// A list of commands, which [`TypeFormatter::sheet_lines`](crate::TypeFormatter::sheet_lines) answers, a line for each text or size.
///
/// A line is its number from 1, the refusal or 0, its detail in hexadecimal, and then a space and the text or the decimal size, if there is one. A text may
/// hold any character of a name, a line feed too; where such names may come, lines cannot be told apart and single calls are the way to ask.
///
/// ```
/// use yokberd::{Sheet, TypeFormatter, TypeFormatterFlags, TypeIndex};
///
/// let types = std::fs::read("../crates/names/data/types.bin")?;
/// let formatter = TypeFormatter::new_from_parts(&types, &[], 8, TypeFormatterFlags::empty());
/// let mut sheet = formatter.sheet();
/// sheet.type_text(TypeIndex(0x1007)).type_size(TypeIndex(0x1007)).type_text(TypeIndex(0x1008));
/// assert_eq!(formatter.sheet_lines(&sheet), b"1 0 0x0 struct A[5][3]\n2 0 0x0 60\n3 12 0x1008\n");
/// # Ok::<(), std::io::Error>(())
/// ```
#[derive(Clone, Debug, Default, PartialEq, Eq)]
pub struct Sheet {
    commands: Vec<u8>,
}

impl Sheet {
    /// A sheet with no command. Flags start as 0 and the pointer size as 8.
    pub const fn new() -> Self {
        Sheet { commands: Vec::new() }
    }

    /// A sheet of given bytes. An unknown or cut command among them prints refusal 16 and ends the sheet.
    pub const fn from_bytes(commands: Vec<u8>) -> Self {
        Sheet { commands }
    }

    /// The commands as bytes.
    pub fn as_bytes(&self) -> &[u8] {
        &self.commands
    }

    /// Sets the flags for what follows.
    pub fn flags(&mut self, flags: TypeFormatterFlags) -> &mut Self {
        self.command(0x01, flags.bits())
    }

    /// Sets the pointer size for what follows.
    pub fn pointer_size(&mut self, size: u8) -> &mut Self {
        self.commands.extend([0x02, size]);
        self
    }

    /// Asks for the text of a type.
    pub fn type_text(&mut self, index: TypeIndex) -> &mut Self {
        self.command(0x10, index.0)
    }

    /// Asks for the size of a type.
    pub fn type_size(&mut self, index: TypeIndex) -> &mut Self {
        self.command(0x11, index.0)
    }

    /// Asks for the text of an id.
    pub fn id_text(&mut self, index: IdIndex) -> &mut Self {
        self.command(0x12, index.0)
    }

    /// Asks for the text of a function. `None`, and no command, where a sheet cannot hold the name: it has more than 16 bytes, or one of them is 0.
    pub fn function_text(&mut self, name: &[u8], index: TypeIndex) -> Option<&mut Self> {
        if name.len() > NAME_WIDTH || name.contains(&0) {
            return None;
        }
        let mut held = [0; NAME_WIDTH];
        held[..name.len()].copy_from_slice(name);
        self.command(0x13, index.0).commands.extend(held);
        Some(self)
    }

    fn command(&mut self, byte: u8, number: u32) -> &mut Self {
        self.commands.push(byte);
        self.commands.extend(number.to_le_bytes());
        self
    }
}

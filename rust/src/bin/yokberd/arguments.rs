//! The command line's words.
use crate::messages::Failure;
use std::ffi::{OsStr, OsString};
use std::os::unix::ffi::{OsStrExt, OsStringExt};
use std::path::PathBuf;
use yokberd::TypeFormatterFlags;

/// What is asked for.
#[derive(Clone, Copy, PartialEq, Eq)]
pub enum What {
    Ids,
    Types,
    Sizes,
    Functions,
}

/// The form of the answers.
#[derive(Clone, Copy, PartialEq, Eq)]
pub enum Form {
    Plain,
    Json,
    Tsv,
}

/// Where the streams are.
pub enum Files {
    Pdb(PathBuf),
    Exported { types: PathBuf, ids: Option<PathBuf> },
}

/// An index that is asked for, with a function's name.
pub struct Item {
    pub index: u32,
    pub name: Vec<u8>,
}

/// All that the words say.
pub struct Arguments {
    pub what: What,
    pub files: Files,
    /// Not only function and member ids.
    pub all: bool,
    /// The indexes that are given, or none for those of the stream.
    pub items: Vec<Item>,
    /// Whether further indexes are on standard input.
    pub from_input: bool,
    pub flags: TypeFormatterFlags,
    pub pointer_size: Option<u8>,
    pub form: Form,
    pub sheet: Option<PathBuf>,
}

/// What to do.
pub enum Command {
    Help,
    Version,
    Usage,
    Answer(Arguments),
}

// The words as they are read, one by one.
#[derive(Default)]
struct Words {
    help: bool,
    version: bool,
    plain: Vec<OsString>,
    types: Option<PathBuf>,
    ids: Option<PathBuf>,
    indexes: Vec<Vec<u8>>,
    all: bool,
    flags: Option<TypeFormatterFlags>,
    pointer_size: Option<u8>,
    form: Option<Form>,
    sheet: Option<PathBuf>,
}

/// What the words of the command line ask for.
pub fn parse(words: impl Iterator<Item = OsString>) -> Result<Command, Failure> {
    let mut words = words.peekable();
    if words.peek().is_none() {
        return Ok(Command::Usage);
    }
    let mut read = Words::default();
    while let Some(word) = words.next() {
        match word.as_bytes() {
            b"--" => read.plain.extend(words.by_ref()),
            bytes if bytes.starts_with(b"-") && bytes.len() > 1 => read.option(&word, &mut words)?,
            _ => read.plain.push(word),
        }
    }
    match (read.help, read.version) {
        (true, _) => Ok(Command::Help),
        (_, true) => Ok(Command::Version),
        _ => read.arguments().map(Command::Answer),
    }
}

impl Words {
    // An option, with its value behind a `=` or in the next word.
    fn option(&mut self, word: &OsStr, rest: &mut impl Iterator<Item = OsString>) -> Result<(), Failure> {
        let mut parts = word.as_bytes().splitn(2, |byte| *byte == b'=');
        let name = String::from_utf8_lossy(parts.next().unwrap_or_default());
        let inside = parts.next().map(<[u8]>::to_vec);
        if self.switch(&name) {
            return match inside {
                Some(_) => wrong(format!("{name} takes no value; write {name} alone")),
                None => Ok(()),
            };
        }
        let mut value = || match inside.clone().or_else(|| rest.next().map(OsString::into_vec)) {
            Some(value) => Ok(value),
            None => wrong(format!("{name} needs a value behind it; see yokberd --help")),
        };
        match &*name {
            "--types" => self.types = Some(path(value()?)),
            "--ids" => self.ids = Some(path(value()?)),
            "--sheet" => self.sheet = Some(path(value()?)),
            "--index" => self.indexes.push(value()?),
            "--flags" => self.flags = Some(flags(&value()?)?),
            "--pointer-size" => self.pointer_size = Some(pointer_size(&value()?)?),
            _ => return wrong(format!("there is no option {name}; yokberd --help lists them")),
        }
        Ok(())
    }

    // Whether the word is one without a value; then it is noted.
    fn switch(&mut self, name: &str) -> bool {
        match name {
            "--help" | "-h" => self.help = true,
            "--version" | "-V" => self.version = true,
            "--all" => self.all = true,
            "--json" => self.form = Some(Form::Json),
            "--tsv" => self.form = Some(Form::Tsv),
            _ => return false,
        }
        true
    }

    fn arguments(self) -> Result<Arguments, Failure> {
        let mut plain = self.plain.into_iter();
        let what = what(plain.next())?;
        let files = files(what, plain.next(), self.types, self.ids)?;
        if let Some(word) = plain.next() {
            return wrong(format!("one file at a time: `{}` is one too many; indexes are given by --index", word.to_string_lossy()));
        }
        let (from_input, given): (Vec<_>, Vec<_>) = self.indexes.into_iter().partition(|word| word == b"-");
        if what == What::Functions && from_input.is_empty() && given.is_empty() {
            return wrong("functions needs --index INDEX=NAME, or --index - and lines `INDEX NAME` on standard input".to_string());
        }
        if self.all && (what != What::Ids || !given.is_empty() || !from_input.is_empty()) {
            return wrong("--all is for `ids` without --index: types and sizes are all given where no index is; leave it out".to_string());
        }
        Ok(Arguments {
            what,
            files,
            all: self.all,
            items: items(what, &given)?,
            from_input: !from_input.is_empty(),
            flags: self.flags.unwrap_or_default(),
            pointer_size: self.pointer_size,
            form: self.form.unwrap_or(Form::Plain),
            sheet: self.sheet,
        })
    }
}

fn wrong<T>(what: String) -> Result<T, Failure> {
    Err(Failure::Use(what))
}

fn path(word: Vec<u8>) -> PathBuf {
    PathBuf::from(OsString::from_vec(word))
}

fn what(word: Option<OsString>) -> Result<What, Failure> {
    let word = word.unwrap_or_default();
    match word.as_bytes() {
        b"ids" => Ok(What::Ids),
        b"types" => Ok(What::Types),
        b"sizes" => Ok(What::Sizes),
        b"functions" => Ok(What::Functions),
        b"" => wrong("say what you want: ids, types, sizes or functions; see yokberd --help".to_string()),
        _ => wrong(format!("`{}` is none of ids, types, sizes and functions; see yokberd --help", word.to_string_lossy())),
    }
}

fn files(what: What, file: Option<OsString>, types: Option<PathBuf>, ids: Option<PathBuf>) -> Result<Files, Failure> {
    match (file, types, ids) {
        (Some(_), Some(_), _) | (Some(_), _, Some(_)) => wrong("give a .pdb file, or streams by --types and --ids, not both".to_string()),
        (Some(file), None, None) => Ok(Files::Pdb(file.into())),
        (None, Some(_), None) if what == What::Ids => wrong("ids needs the id stream too: give it by --ids".to_string()),
        (None, Some(types), ids) => Ok(Files::Exported { types, ids: ids.filter(|_| what == What::Ids) }),
        (None, None, Some(_)) => wrong("the type stream is needed too: give it by --types".to_string()),
        (None, None, None) => wrong("name a .pdb file, or give streams by --types and --ids; see yokberd --help".to_string()),
    }
}

/// An index, decimal or hexadecimal behind 0x.
pub fn index(word: &[u8]) -> Option<u32> {
    let word = std::str::from_utf8(word).ok()?.trim();
    match word.strip_prefix("0x").or_else(|| word.strip_prefix("0X")) {
        Some(digits) if !digits.starts_with('+') => u32::from_str_radix(digits, 16).ok(),
        None if !word.starts_with('+') => word.parse().ok(),
        _ => None,
    }
}

/// An index and a name of a function, which `apart` parts.
pub fn function(word: &[u8], apart: fn(&u8) -> bool) -> Option<Item> {
    let at = word.iter().position(apart)?;
    Some(Item { index: index(&word[..at])?, name: trimmed(&word[at + 1..]).to_vec() })
}

/// A word without the blanks around it.
pub fn trimmed(word: &[u8]) -> &[u8] {
    let is_text = |byte: &u8| !byte.is_ascii_whitespace();
    let start = word.iter().position(is_text).unwrap_or(word.len());
    let end = word.iter().rposition(is_text).map_or(start, |last| last + 1);
    &word[start..end]
}

fn items(what: What, words: &[Vec<u8>]) -> Result<Vec<Item>, Failure> {
    let as_is = |word: &[u8]| String::from_utf8_lossy(word).into_owned();
    match what {
        What::Functions => words
            .iter()
            .map(|word| {
                let wrong = || Failure::Use(format!("--index {}: a function is given as INDEX=NAME, as in 0x1001=step", as_is(word)));
                function(word, |byte| *byte == b'=').ok_or_else(wrong)
            })
            .collect(),
        _ => words
            .iter()
            .flat_map(|word| word.split(|byte| *byte == b','))
            .map(|word| {
                let wrong = || Failure::Use(format!("--index {}: no index; write it decimal or hexadecimal, as in 4097 or 0x1001", as_is(word)));
                index(word).map(|index| Item { index, name: Vec::new() }).ok_or_else(wrong)
            })
            .collect(),
    }
}

fn flags(word: &[u8]) -> Result<TypeFormatterFlags, Failure> {
    let word = String::from_utf8_lossy(word);
    if word == "none" {
        return Ok(TypeFormatterFlags::empty());
    }
    word.split(',').try_fold(TypeFormatterFlags::empty(), |flags, name| match TypeFormatterFlags::NAMES.iter().find(|(known, _)| *known == name) {
        Some((_, flag)) => Ok(flags | *flag),
        None => {
            let names = TypeFormatterFlags::NAMES.map(|(known, _)| known).join(", ");
            wrong(format!("--flags {word}: there is no flag `{name}`; there are {names}, or none"))
        }
    })
}

fn pointer_size(word: &[u8]) -> Result<u8, Failure> {
    match index(word) {
        Some(size @ (4 | 8 | 16)) => Ok(size as u8),
        _ => wrong(format!("--pointer-size {}: a pointer has 4, 8 or 16 bytes; give the size of the program's machine", String::from_utf8_lossy(word))),
    }
}

#[cfg(test)]
mod tests {
    use super::*;

    #[test]
    fn indexes() {
        for (word, number) in
            [("0x1001", 0x1001), ("0X1f", 0x1f), ("4097", 4097), (" 7\t", 7), ("0", 0), ("0xffffffff", u32::MAX), ("4294967295", u32::MAX)]
        {
            assert_eq!(index(word.as_bytes()), Some(number), "{word}");
        }
        for word in ["", "0x", "x", "+1", "0x+1", "-1", "1 2", "0x100000000", "4294967296", "1001h", "\u{661}"] {
            assert_eq!(index(word.as_bytes()), None, "{word}");
        }
        assert_eq!(index(b"\xff"), None);
    }

    #[test]
    fn functions() {
        let parted = |word: &str| function(word.as_bytes(), |byte| *byte == b'=').map(|item| (item.index, String::from_utf8(item.name).unwrap()));
        assert_eq!(parted("0x1001=operator=="), Some((0x1001, "operator==".to_string())), "the first sign parts");
        assert_eq!(parted("7= f<a, b> "), Some((7, "f<a, b>".to_string())));
        assert_eq!(parted("0="), Some((0, String::new())));
        assert_eq!((parted("step"), parted("=step"), parted("x=step")), (None, None, None));
    }
}

//! Prints every id of a pair of streams with its text, or why it has none.
//!
//!     cargo run --example names [TYPES IDS]
//!
//! With no files it takes a shipped pair, made from a C++ file with many functions `advance`.
use std::error::Error;
use std::{env, fs};
use yokberd::{IdIndex, TypeFormatter, TypeFormatterFlags};

fn main() -> Result<(), Box<dyn Error>> {
    let shipped = concat!(env!("CARGO_MANIFEST_DIR"), "/../crates/test_vectors/data/overloads");
    let mut files = env::args().skip(1);
    let types = fs::read(files.next().unwrap_or(format!("{shipped}-types.bin")))?;
    let ids = fs::read(files.next().unwrap_or(format!("{shipped}-ids.bin")))?;
    let formatter = TypeFormatter::new_from_parts(&types, &ids, 8, TypeFormatterFlags::default());

    let indexes: Vec<_> = formatter.id_indexes()?.map(IdIndex).collect();
    for (index, text) in indexes.iter().zip(formatter.format_ids(&indexes)) {
        match text {
            Ok(text) => println!("{index} {text}"),
            Err(error) => println!("{index} refused ({}): {error}", error.number()),
        }
    }
    Ok(())
}

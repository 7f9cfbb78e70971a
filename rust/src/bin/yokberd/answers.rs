//! The answers of the library, in batches where it has them.
use crate::arguments::{Item, What};
use crate::messages::{grouped, Failure};
use crate::output::{Output, Value};
use std::fs;
use std::path::Path;
use yokberd::{BatchAnswer, IdIndex, Sheet, TypeFormatter, TypeIndex, NAME_WIDTH, TEXT_LIMIT};

// How many indexes are answered between two writes.
const PART: usize = 1 << 12;

// The longest sheet that `names` reads.
const SHEET_LIMIT: usize = 1 << 14;

/// Writes a line for each item.
pub fn write(output: &mut Output, formatter: &TypeFormatter, what: What, items: &[Item]) -> Result<(), Failure> {
    match what {
        What::Ids => {
            let indexes: Vec<_> = items.iter().map(|item| IdIndex(item.index)).collect();
            texts(output, &indexes, |out, answers, rest| formatter.format_ids_into(out, answers, rest))
        }
        What::Types => {
            let indexes: Vec<_> = items.iter().map(|item| TypeIndex(item.index)).collect();
            texts(output, &indexes, |out, answers, rest| formatter.format_types_into(out, answers, rest))
        }
        What::Sizes => items
            .chunks(PART)
            .try_for_each(|part| output.part(part.iter().map(|item| (item.index, formatter.get_type_size(0, TypeIndex(item.index)).map(Value::Size))))),
        What::Functions => functions(output, formatter, items),
    }
}

// The texts lie one behind another in a buffer that takes the longest one.
fn texts<I: Copy + Into<u32>>(output: &mut Output, indexes: &[I], call: impl Fn(&mut [u8], &mut [BatchAnswer], &[I]) -> usize) -> Result<(), Failure> {
    let mut texts = vec![0; TEXT_LIMIT];
    let mut answers = vec![BatchAnswer::default(); indexes.len().min(PART)];
    let mut rest = indexes;
    while !rest.is_empty() {
        let done = call(&mut texts, &mut answers, rest);
        output.part(rest[..done].iter().zip(&answers).map(|(index, answer)| ((*index).into(), answer.text(&texts).map(Value::Text))))?;
        rest = &rest[done..];
    }
    Ok(())
}

fn functions(output: &mut Output, formatter: &TypeFormatter, items: &[Item]) -> Result<(), Failure> {
    for part in items.chunks(PART) {
        let texts: Vec<_> = part.iter().map(|item| formatter.format_function_bytes(&item.name, 0, TypeIndex(item.index))).collect();
        output.part(part.iter().zip(&texts).map(|(item, text)| (item.index, text.as_deref().map(Value::Text).map_err(|error| *error))))?;
    }
    Ok(())
}

/// Writes the sheet of the same calls, for the program `names`.
pub fn write_sheet(path: &Path, formatter: &TypeFormatter, what: What, items: &[Item]) -> Result<(), Failure> {
    let mut sheet = formatter.sheet();
    for item in items {
        command(&mut sheet, what, item)?;
    }
    fs::write(path, sheet.as_bytes()).map_err(|error| Failure::written(&path.display().to_string(), error))?;
    let len = sheet.as_bytes().len();
    if len > SHEET_LIMIT {
        eprintln!("yokberd: {}: it has {} bytes, and `names` reads the first {}", path.display(), grouped(len), grouped(SHEET_LIMIT));
    }
    Ok(())
}

fn command(sheet: &mut Sheet, what: What, item: &Item) -> Result<(), Failure> {
    match what {
        What::Ids => sheet.id_text(IdIndex(item.index)),
        What::Types => sheet.type_text(TypeIndex(item.index)),
        What::Sizes => sheet.type_size(TypeIndex(item.index)),
        What::Functions => sheet.function_text(&item.name, TypeIndex(item.index)).ok_or_else(|| {
            let name = String::from_utf8_lossy(&item.name);
            Failure::Use(format!("`{name}`: a sheet holds names of at most {NAME_WIDTH} bytes; leave --sheet out"))
        })?,
    };
    Ok(())
}

//! Names of records in any code page: each ill-formed part is replaced as the standard library's `String::from_utf8_lossy` replaces it. The name of a call
//! stays as it is given.
mod common;

use common::{arguments, case_count, class, enumerate, enumeration, function_id, member_id, method, procedure, raw_name, stream, string_id, union, Rng};
use yokberd::{Error, IdIndex, TypeFormatter, TypeFormatterFlags, TypeIndex};

// One of each record that has a name, with what stands before and behind it in its text.
struct Named {
    types: Vec<u8>,
    ids: Vec<u8>,
}

const TYPES: [&str; 6] = ["class ", "struct ", "interface ", "union ", "enum ", "enum class "];
const IDS: [(&str, &str); 3] = [("void ", "()"), ("static void int::", "()"), ("", "")];

impl Named {
    fn new(name: &[u8]) -> Self {
        let types = [
            class(0x1504, name, None, 4, false),
            class(0x1505, name, Some(b"unique"), 4, false),
            class(0x1519, name, None, 4, false),
            union(name, None, 4, false),
            enumeration(name, None, 0x74),
            enumerate(name, 1),
            arguments(&[]),
            procedure(3, 0x1006, 0),
            method(3, 0x74, 0, 0x1006, 0),
        ];
        let ids = [function_id(0, 0x1007, name), member_id(0x74, 0x1008, name), string_id(0, name)];
        Named { types: stream(&types), ids: stream(&ids) }
    }

    fn formatter(&self, flags: TypeFormatterFlags) -> TypeFormatter<'_> {
        TypeFormatter::new_from_parts(&self.types, &self.ids, 8, flags)
    }

    // The text of each type with its word and alone, and of each id.
    fn texts(&self) -> Vec<Result<Vec<u8>, Error>> {
        let (plain, alone) = (self.formatter(TypeFormatterFlags::empty()), self.formatter(TypeFormatterFlags::NAME_ONLY));
        let types = (0x1000..0x1006).flat_map(|index| [&plain, &alone].map(|by| by.format_type_bytes(0, TypeIndex(index))));
        types.chain((0x1000..0x1003).map(|index| plain.format_id_bytes(0, IdIndex(index)))).collect()
    }
}

fn expected(name: &[u8]) -> Vec<Result<Vec<u8>, Error>> {
    let shown = String::from_utf8_lossy(name);
    let types = TYPES.iter().flat_map(|word| [format!("{word}{shown}"), shown.to_string()]);
    let ids = IDS.iter().map(|(before, behind)| match (name.is_empty(), behind.is_empty()) {
        (true, false) => format!("{before}<name omitted>{behind}"),
        _ => format!("{before}{shown}{behind}"),
    });
    types.chain(ids).map(|text| Ok(text.into_bytes())).collect()
}

fn held(name: &[u8]) {
    let named = Named::new(name);
    assert_eq!(named.texts(), expected(name), "{name:x?}");
    // the forms that give a `String` give that text
    let alone = named.formatter(TypeFormatterFlags::NAME_ONLY);
    assert_eq!(alone.format_type(0, TypeIndex(0x1000)), Ok(String::from_utf8_lossy(name).into()), "{name:x?}");
    // a name that is given
    if !name.is_empty() {
        let given = [b"void ", name, b"()"].concat();
        assert_eq!(alone.format_function_bytes(name, 0, TypeIndex(0x1007)), Ok(given), "{name:x?}");
        assert_eq!(alone.format_function_bytes(name, 0, TypeIndex(0)), Ok(name.to_vec()), "{name:x?}");
    }
}

#[test]
fn random_and_damaged_names() {
    let mut rng = Rng(0x0f_ff_d0);
    for _ in 0..case_count(1000) * 20 {
        held(&raw_name(&mut rng));
    }
}

#[test]
fn every_two_bytes() {
    for first in 1..=255 {
        for second in 1..=255 {
            held(&[first, second]);
        }
    }
}

#[test]
fn every_three_bytes_at_the_ends_of_ranges() {
    let ends: [u8; 24] =
        [0x41, 0x7f, 0x80, 0x8f, 0x90, 0x9f, 0xa0, 0xbf, 0xc0, 0xc1, 0xc2, 0xdf, 0xe0, 0xe1, 0xec, 0xed, 0xee, 0xef, 0xf0, 0xf1, 0xf3, 0xf4, 0xf5, 0xff];
    for number in 0..ends.len().pow(3) {
        let [first, second, third] = [number / ends.len().pow(2), number / ends.len() % ends.len(), number % ends.len()].map(|at| ends[at]);
        held(&[first, second, third]);
        held(&[b'a', first, second, third, b'z']);
        held(&[0xf1, first, second, third]);
    }
}

// A replaced part takes three bytes of the buffer; where they do not fit, the buffer is filled with zeros.
#[test]
fn rooms() {
    let mut rng = Rng(0x15);
    for _ in 0..200 {
        let name = raw_name(&mut rng);
        let (named, shown) = (Named::new(&name), String::from_utf8_lossy(&name).into_owned());
        let alone = named.formatter(TypeFormatterFlags::NAME_ONLY);
        for room in 0..shown.len() + 3 {
            let mut out = vec![7; room];
            let fits = room >= shown.len();
            let answer = alone.format_type_into(&mut out, 0, TypeIndex(0x1001));
            assert_eq!(answer, if fits { Ok(shown.len()) } else { Err(Error::NoRoom) }, "{name:x?} in {room}");
            let left = if fits { [shown.as_bytes(), &vec![7; room - shown.len()]].concat() } else { vec![0; room] };
            assert_eq!(out, left, "{name:x?} in {room}");
        }
    }
}

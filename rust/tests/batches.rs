//! Batches: each answer is the one of the single call with the same buffer, the texts lie one behind another with zeros behind them, and a caller with little
//! room goes on until all are done.
mod common;

use common::library::{Batch, Plain};
use common::{case_count, hostile_streams, real_streams, settings, Call, Rng, Streams, FIRST};
use yokberd::{BatchAnswer, Error, IdIndex, TypeFormatter, TypeFormatterFlags, TypeIndex};

// Every index of a stream, those beside it, and some that are in none, in any order and some of them twice.
fn some_indexes(rng: &mut Rng, count: u32) -> Vec<u32> {
    let mut indexes: Vec<u32> = (FIRST - 1..=FIRST + count).chain([0, 0x74, 0x674, 0x7fff_ffff, 0x8000_0000, 0xffff_ffff]).collect();
    for at in 0..indexes.len() {
        let other = rng.below(indexes.len());
        indexes.swap(at, other);
    }
    let again = indexes[rng.below(indexes.len())];
    indexes.push(again);
    indexes
}

fn of(what: Batch, streams: &Streams) -> u32 {
    match what {
        Batch::Ids => streams.id_count,
        Batch::Types => streams.type_count,
    }
}

fn call(what: Batch, index: u32) -> Call {
    match what {
        Batch::Ids => Call::Id(index),
        Batch::Types => Call::Type(index),
    }
}

// What the forms that allocate give for many, and for one at a time.
fn allocated(formatter: &TypeFormatter, what: Batch, indexes: &[u32]) {
    let ids: Vec<_> = indexes.iter().copied().map(IdIndex).collect();
    let types: Vec<_> = indexes.iter().copied().map(TypeIndex).collect();
    match what {
        Batch::Ids => {
            assert_eq!(formatter.format_ids(&ids), ids.iter().map(|index| formatter.format_id(0, *index)).collect::<Vec<_>>());
            assert_eq!(formatter.format_ids_bytes(&ids), ids.iter().map(|index| formatter.format_id_bytes(0, *index)).collect::<Vec<_>>());
        }
        Batch::Types => {
            assert_eq!(formatter.format_types(&types), types.iter().map(|index| formatter.format_type(0, *index)).collect::<Vec<_>>());
            assert_eq!(formatter.format_types_bytes(&types), types.iter().map(|index| formatter.format_type_bytes(0, *index)).collect::<Vec<_>>());
        }
    }
}

// A formatter's batch as the library has it: four numbers for each index.
fn by_formatter(formatter: &TypeFormatter, what: Batch, indexes: &[u32], out: &mut [u8], answers: &mut [u64]) -> usize {
    let mut told = vec![BatchAnswer::default(); answers.len() / 4];
    let done = match what {
        Batch::Ids => formatter.format_ids_into(out, &mut told, &indexes.iter().copied().map(IdIndex).collect::<Vec<_>>()),
        Batch::Types => formatter.format_types_into(out, &mut told, &indexes.iter().copied().map(TypeIndex).collect::<Vec<_>>()),
    };
    for (numbers, answer) in answers.chunks_exact_mut(4).zip(&told[..done]) {
        numbers.copy_from_slice(&match answer.range() {
            Ok(range) => [0, 0, range.start as u64, range.len() as u64],
            Err(error) => [error.number().into(), error.detail().into(), 0, 0],
        });
    }
    done
}

// One answer against the single call with so much room: gives the text's length.
fn as_single(plain: &Plain, what: Batch, index: u32, out: &[u8], at: usize, answer: &[u64]) -> usize {
    let mut alone = vec![0xaa; out.len()];
    match plain.ask(call(what, index), &mut alone) {
        Ok(len) => {
            let len = len as usize;
            assert_eq!(answer, [0, 0, at as u64, len as u64], "{what:?} {index:#x}");
            assert_eq!(out[at..at + len], alone[..len], "{what:?} {index:#x}");
            len
        }
        Err(error) => {
            assert_eq!((answer[0], answer[1], answer[3]), (error.number().into(), error.detail().into(), 0), "{what:?} {index:#x}");
            0
        }
    }
}

// A batch in parts, with so much room and so many answers a part; `ask` is one of the ways to ask.
fn in_parts(plain: &Plain, what: Batch, indexes: &[u32], room: usize, slots: usize, ask: impl Fn(&[u32], &mut [u8], &mut [u64]) -> usize) {
    let mut rest = indexes;
    while !rest.is_empty() {
        let (mut out, mut answers) = (vec![0xaa; room], vec![0xaaaa; 4 * slots]);
        let done = ask(rest, &mut out, &mut answers);
        assert!(0 < done && done <= slots.min(rest.len()), "{done} done");
        let indexed = rest[..done].iter().zip(answers.chunks_exact(4));
        let at = indexed.fold(0, |at, (index, answer)| at + as_single(plain, what, *index, &out, at, answer));
        assert!(out[at..].iter().all(|byte| *byte == 0), "bytes behind the texts");
        assert!(answers[4 * done..].iter().all(|number| *number == 0xaaaa), "numbers behind the answers");
        if done < slots.min(rest.len()) {
            let next = plain.ask(call(what, rest[done]), &mut vec![0; room - at]);
            assert!(at > 0 && next == Err(Error::NoRoom), "{done} done, and the next one has room behind the others");
        }
        rest = &rest[done..];
    }
}

fn held(rng: &mut Rng, streams: &Streams) {
    let (flags, pointer_size) = settings(rng);
    let formatter = TypeFormatter::new_from_parts(&streams.types, &streams.ids, pointer_size, flags);
    let plain = Plain { types: &streams.types, ids: &streams.ids, pointer_size: pointer_size.into(), flags: flags.bits() };
    let checked = plain.checked(rng.pick(&[0, 1, 8, 64]));
    for what in [Batch::Ids, Batch::Types] {
        let indexes = some_indexes(rng, of(what, streams));
        for limit in [rng.below(40), 4096, yokberd::TEXT_LIMIT] {
            allocated(&formatter.clone().with_text_limit(limit), what, &indexes);
        }
        for room in [0, rng.below(60), 60 + rng.below(400), 1 << 16] {
            let slots = rng.pick(&[1, 3, indexes.len(), indexes.len() + 2]);
            in_parts(&plain, what, &indexes, room, slots, |rest, out, answers| plain.batch(what, rest, out, answers));
            in_parts(&plain, what, &indexes, room, slots, |rest, out, answers| plain.batch_checked(&checked, what, rest, out, answers));
            in_parts(&plain, what, &indexes, room, slots, |rest, out, answers| by_formatter(&formatter, what, rest, out, answers));
        }
    }
}

#[test]
fn shipped_streams() {
    let mut rng = Rng(0x21_01);
    for streams in real_streams() {
        held(&mut rng, &streams);
    }
}

#[test]
fn random_and_damaged_streams() {
    let mut rng = Rng(0x22_02);
    for case in 0..case_count(150) {
        let streams = hostile_streams(&mut rng, case);
        held(&mut rng, &streams);
    }
}

// Nothing asked, no room for an answer, and answers that are cut: nothing is done, and the buffer is cleared.
#[test]
fn nothing_to_do() {
    let streams = real_streams().remove(0);
    let plain = Plain { types: &streams.types, ids: &streams.ids, pointer_size: 8, flags: 0 };
    for (indexes, slots) in [(&[][..], 8), (&[0x1001][..], 0), (&[0x1001][..], 3)] {
        let (mut out, mut answers) = ([0xaa; 50], vec![0xaaaa; slots]);
        assert_eq!(plain.batch(Batch::Ids, indexes, &mut out, &mut answers), 0);
        assert_eq!((out, answers), ([0; 50], vec![0xaaaa; slots]));
    }
    let formatter = TypeFormatter::new_from_parts(&streams.types, &streams.ids, 8, TypeFormatterFlags::default());
    assert_eq!(formatter.format_ids(&[]), []);
    assert_eq!(formatter.format_ids_into(&mut [0; 9], &mut [], &[IdIndex(0x1001)]), 0);
}

// Texts that are longer than the page of a batch, up to the formatter's limit.
#[test]
fn long_texts() {
    let name = vec![b'n'; 60_000];
    let types = common::stream(&[common::class(0x1505, &name, None, 4, false), common::arguments(&[0x1000; 2]), common::arguments(&[0x1000; 20])]);
    let formatter = TypeFormatter::new_from_parts(&types, &[], 8, TypeFormatterFlags::NAME_ONLY);
    let indexes = [0x1000, 0x1001, 0x74, 0x1002, 0x1000].map(TypeIndex);
    let two = [&name[..], &name[..]].join(&b","[..]);
    let expected = [Ok(name.clone()), Ok(two.clone()), Ok(b"int".to_vec()), Err(Error::NoRoom), Ok(name.clone())];
    assert_eq!(formatter.format_types_bytes(&indexes), expected);
    let at_most = |limit| formatter.clone().with_text_limit(limit).format_types_bytes(&indexes[..2]);
    assert_eq!(at_most(120_001), [Ok(name.clone()), Ok(two)]);
    assert_eq!(at_most(120_000), [Ok(name), Err(Error::NoRoom)]);
    assert_eq!(at_most(59_999), [Err(Error::NoRoom), Err(Error::NoRoom)]);
}

// More indexes than one call answers.
#[test]
fn many_indexes() {
    let streams = real_streams().remove(4);
    let formatter = TypeFormatter::new_from_parts(&streams.types, &streams.ids, 8, TypeFormatterFlags::default());
    let indexes: Vec<_> = (0..5000).map(|at| TypeIndex(FIRST + at % streams.type_count)).collect();
    let texts = formatter.format_types(&indexes);
    assert_eq!(texts.len(), 5000);
    for (index, text) in indexes.iter().zip(texts) {
        assert_eq!(text, formatter.format_type(0, *index));
    }
}

// Any numbers in place of what the check noted: a batch ends, says what is done, and writes nothing else.
#[test]
fn any_numbers() {
    let mut rng = Rng(0x23_03);
    for case in 0..case_count(100) {
        let streams = if case % 4 == 0 { real_streams().remove(rng.below(5)) } else { hostile_streams(&mut rng, case) };
        let plain = Plain { types: &streams.types, ids: &streams.ids, pointer_size: 8, flags: rng.below(64) as u32 };
        let mut checked = plain.checked(8);
        for number in checked.iter_mut().filter(|_| case % 3 == 0 || case % 7 == 1) {
            *number = rng.pick(&[0, 1, 56, 0x1000, rng.0 as u32, u32::MAX]);
        }
        let what = rng.pick(&[Batch::Ids, Batch::Types]);
        let indexes = some_indexes(&mut rng, of(what, &streams));
        let (mut out, mut answers) = (vec![0xaa; rng.below(3000)], vec![0xaaaa; 4 * indexes.len()]);
        let done = plain.batch_checked(&checked, what, &indexes, &mut out, &mut answers);
        assert!(0 < done && done <= indexes.len());
        let texts: u64 = answers.chunks_exact(4).take(done).map(|answer| answer[3]).sum();
        assert!(out[texts as usize..].iter().all(|byte| *byte == 0), "bytes behind the texts");
        assert!(answers[4 * done..].iter().all(|number| *number == 0xaaaa), "numbers behind the answers");
    }
}

// The indexes of a stream, or why it is refused.
#[test]
fn indexes_of_streams() {
    for streams in real_streams() {
        let formatter = TypeFormatter::new_from_parts(&streams.types, &streams.ids, 3, TypeFormatterFlags::from_bits_retain(0x40));
        assert_eq!(formatter.type_indexes(), Ok(FIRST..FIRST + streams.type_count), "whatever the settings");
        assert_eq!(formatter.id_indexes(), Ok(FIRST..FIRST + streams.id_count));
        let cut = TypeFormatter::new_from_parts(&streams.types, &streams.ids[..55], 8, TypeFormatterFlags::empty());
        assert_eq!(cut.id_indexes(), Err(Error::Header(yokberd::StreamKind::Ids)));
        assert_eq!(cut.type_indexes(), Ok(FIRST..FIRST + streams.type_count));
        let mut short = streams.types.clone();
        short[16] = short[16].wrapping_sub(1);
        let untiled = TypeFormatter::new_from_parts(&short, &streams.ids, 8, TypeFormatterFlags::empty());
        let refused = untiled.format_type(0, TypeIndex(0x74)).unwrap_err();
        assert_eq!((untiled.type_indexes(), untiled.id_indexes()), (Err(refused), Err(refused)));
    }
}

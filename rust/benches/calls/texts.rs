//! Texts of growing length, and their measures.
use crate::common::{self, Call, FIRST};
use crate::table::{grown, head, micros, ratio, row, thousands};
use crate::timing::{in_turns, Contender};
use std::hint::black_box;
use yokberd::{TypeFormatter, TypeFormatterFlags};

pub fn print() {
    let columns = ["What grows", "Bytes of the text", "Microseconds", "To the text before", "Nanoseconds a byte", "Its measure", "**Ratio**"];
    head("Texts of growing length, checked once", &columns);
    let function = |count: usize| common::stream(&[common::arguments(&vec![0x74; count]), common::procedure(3, FIRST, 0)]);
    let name = |len: usize| common::stream(&[common::class(0x1505, &vec![b'n'; len], None, 4, false)]);
    let argument_counts = [1, 4, 16, 64, 256, 1024].map(|count| ("arguments of a function", function(count), Call::Function(b"f", FIRST + 1)));
    let name_lengths = [16, 64, 256, 1024, 4096, 16_384].map(|len| ("the name of a struct", name(len), Call::Type(FIRST)));
    for cases in [argument_counts, name_lengths] {
        let mut before = None;
        for (what, types, call) in cases {
            let formatter = TypeFormatter::new_from_parts(&types, &[], 8, TypeFormatterFlags::empty());
            let mut out = vec![0; 1 << 16];
            let len = call.ask(&formatter, &mut out).unwrap();
            let write = || assert_eq!(black_box(call.ask(&formatter, &mut out)), Ok(len));
            let measure = || assert_eq!(black_box(call.measure(&formatter)).map(|measure| measure.length), Ok(len));
            let contenders = vec![Contender { calls: 1, work: Box::new(write) }, Contender { calls: 1, work: Box::new(measure) }];
            let [time, measured] = in_turns(contenders).try_into().unwrap();
            let cells = [what.into(), thousands(len as f64), micros(time), grown(time, before), format!("{:.1}", time * 1e9 / len as f64)];
            row(&[&cells[..], &[micros(measured), ratio(measured / time)]].concat());
            before = Some(time);
        }
    }
}

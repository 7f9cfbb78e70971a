//! Single calls over kept places, beside the plain ones and those over streams checked once: the same indexes of the same streams, in turns, in one process.
//! All answers are compared first.
use crate::common::library::{Number, Plain};
use crate::common::{self, Call, Streams, CHAIN, FIRST};
use crate::side_by_side::{each, formatter, ours, plain, spread, FEW, KINDS, ROOM};
use crate::table::{head, micros, ratio, row, thousands};
use crate::timing::{in_turns, Contender};
use std::hint::black_box;
use yokberd::{fill_places, fill_places_into, PlacedFormatter, TypeFormatter, TypeFormatterFlags};

// A call that looks nothing up.
const NOTHING: [Call; 1] = [Call::Type(0x74)];

// Records before the chains whose openings are measured, and how many chains a text has.
const RECORDS: [usize; 5] = [1000, 10_000, 100_000, 1_000_000, 4_000_000];
const ENTRIES: usize = 16;

// The ways to ask.
struct Ways<'a> {
    plain: Plain<'a>,
    placed: PlacedFormatter<'a>,
    checked: TypeFormatter<'a>,
}

// Into a buffer; a size is a number.
fn over_places(formatter: &PlacedFormatter, call: Call, out: &mut [u8]) -> Number {
    match call {
        Call::Function(name, index) => formatter.format_function_into(out, name, 0, index.into()).map(|len| len as u64),
        Call::Id(index) => formatter.format_id_into(out, 0, index.into()).map(|len| len as u64),
        Call::Type(index) => formatter.format_type_into(out, 0, index.into()).map(|len| len as u64),
        Call::Size(index) => formatter.get_type_size(0, index.into()),
    }
}

impl<'a> Ways<'a> {
    fn new(streams: &'a Streams, places: &'a [u32]) -> Self {
        let placed = PlacedFormatter::new(&streams.types, &streams.ids, places, 8, TypeFormatterFlags::empty());
        Ways { plain: plain(streams), placed, checked: formatter(streams) }
    }

    // The calls asked plainly, over places and checked once, each with a buffer of its own. Those over places answer as the plain ones do, buffers too.
    fn contenders(&'a self, calls: &'a [Call]) -> Vec<Contender<'a>> {
        let (mut plain_out, mut placed_out, mut checked_out) = ([0; ROOM], [0; ROOM], [0; ROOM]);
        for call in calls {
            let (expected, answer) = (self.plain.ask(*call, &mut plain_out), over_places(&self.placed, *call, &mut placed_out));
            assert!(answer == expected && placed_out == plain_out, "{call:?}");
        }
        vec![
            each(calls, move |call| self.plain.ask(call, &mut plain_out)),
            each(calls, move |call| over_places(&self.placed, call, &mut placed_out)),
            each(calls, move |call| ours(&self.checked, call, &mut checked_out)),
        ]
    }
}

fn nanoseconds(time: f64) -> String {
    format!("{:.2}", time * 1e9)
}

fn start(streams: &Streams) -> [String; 2] {
    [format!("`{}`", streams.name), thousands(streams.type_count.into())]
}

/// All kinds of calls, over all of the streams.
pub fn print_single(all: &[Streams]) {
    let columns = ["Streams", "Records", "Call", "Single", "Over places", "**Ratio**", "Checked once"];
    head("Single calls over places, in microseconds", &columns);
    for streams in all {
        let places = fill_places(&streams.types).unwrap();
        let ways = Ways::new(streams, &places);
        for kind in KINDS {
            let calls = spread(&kind.calls(streams), FEW);
            let [single, placed, checked] = in_turns(ways.contenders(&calls)).try_into().unwrap();
            let cells = [kind.name().into(), micros(single), micros(placed), ratio(placed / single), micros(checked)];
            row(&[&start(streams)[..], &cells].concat());
        }
    }
}

/// What the check takes without places and with them, by a call that looks nothing up; and the pass that fills them.
pub fn print_check(all: &[Streams]) {
    let columns = [
        "Streams",
        "Records",
        "Places",
        "Single",
        "Over places",
        "**Ratio**",
        "The pass",
        "**To single**",
        "Single, ns a record",
        "Over places",
        "The pass",
    ];
    head("The check alone, in microseconds", &columns);
    for streams in all {
        let places = fill_places(&streams.types).unwrap();
        let (ways, mut filled) = (Ways::new(streams, &places), places.clone());
        let fill = || assert_eq!(black_box(fill_places_into(&streams.types, &mut filled)), Ok(places.len()));
        let mut contenders = ways.contenders(&NOTHING);
        contenders[2] = Contender { calls: 1, work: Box::new(fill) };
        let [single, placed, pass] = in_turns(contenders).try_into().unwrap();
        let cells = [thousands(places.len() as f64), micros(single), micros(placed), ratio(placed / single), micros(pass), ratio(pass / single)];
        let per_record = [single, placed, pass].map(|time| nanoseconds(time / f64::from(streams.type_count)));
        row(&[&start(streams)[..], &cells, &per_record].concat());
    }
}

/// What a look-up takes: texts of chains of modifiers behind many records, less a call that looks nothing up, for each index that they open.
pub fn print_openings(most: usize) {
    head("An opening, in nanoseconds", &["Records", "Single", "Over places", "**Ratio**", "Checked once"]);
    for records in RECORDS.into_iter().filter(|records| 4 * records <= most) {
        let (types, index) = common::chains(records, ENTRIES);
        let streams = Streams { name: "chains".into(), types, ids: Vec::new(), type_count: index + 1 - FIRST, id_count: 0 };
        let (places, text) = (fill_places(&streams.types).unwrap(), [Call::Type(index)]);
        let ways = Ways::new(&streams, &places);
        let times = in_turns(ways.contenders(&text).into_iter().chain(ways.contenders(&NOTHING)).collect());
        let openings = f64::from(CHAIN + 1) * ENTRIES as f64;
        let [single, placed, checked] = [0, 1, 2].map(|way| (times[way] - times[way + 3]).max(0.0) / openings);
        row(&[thousands(records as f64), nanoseconds(single), nanoseconds(placed), ratio(placed / single), nanoseconds(checked)]);
    }
}

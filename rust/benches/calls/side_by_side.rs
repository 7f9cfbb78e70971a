//! Our calls and the original's, side by side: the same indexes of the same streams, in turns, in one process. All answers are compared first.
//!
//! | Ours, into a buffer | The original's `format_` calls |
//! |---|---|
//! | single: a plain call, which checks its streams | fresh: a new formatter for each call |
//! | checked once: one formatter of the crate, which checked the streams when it was made | warm: one formatter, of which all of this was asked before |
//! | a sheet's line: all calls in one sheet of that formatter | the same |
//! | an answer of a batch: all ids, or all types, in one call of that formatter | the same |
//!
//! Like for like: the same with the original's `emit_` calls, which write into a string that is there; and our calls that make a `String`, of a new
//! formatter and of one that checked.
use crate::asked::{answer, refusal, Answer, Original};
use crate::common::library::Plain;
use crate::common::{record_kinds, Call, Rng, Streams, FIRST, UNHANDLED};
use crate::pdb_stand_in::{IdIndex, MachineType, TypeIndex};
use crate::table::{grown, head, micros, ratio, row, thousands};
use crate::timing::{in_turns, seconds, Contender};
use crate::type_formatter::TypeFormatter as Theirs;
use std::hint::black_box;
use yokberd::{BatchAnswer, Sheet, TypeFormatter, TypeFormatterFlags};

const NAME: &str = "advance";

// A single call walks over whole streams, so fewer of them are asked.
pub const FEW: usize = 64;
const MANY: usize = 4096;

// All of the many calls take no longer than so many seconds, each way.
const PASS: f64 = 0.4;

// The longest text of a sheet.
pub const ROOM: usize = 4096;

#[derive(Clone, Copy, PartialEq)]
pub enum Kind {
    Function,
    Id,
    Type,
    Size,
}

pub const KINDS: [Kind; 4] = [Kind::Function, Kind::Id, Kind::Type, Kind::Size];

impl Kind {
    pub fn name(self) -> &'static str {
        match self {
            Kind::Function => "function",
            Kind::Id => "id",
            Kind::Type => "type",
            Kind::Size => "size",
        }
    }

    fn call(self, index: u32) -> Call {
        match self {
            Kind::Function => Call::Function(NAME.as_bytes(), index),
            Kind::Id => Call::Id(index),
            Kind::Type => Call::Type(index),
            Kind::Size => Call::Size(index),
        }
    }

    // Whether this is asked of a record: the original writes records that it does not handle as debug text.
    fn asked_of(self, record_kind: u16) -> bool {
        match self {
            Kind::Function => matches!(record_kind, 0x1008 | 0x1009),
            Kind::Id | Kind::Type => !UNHANDLED.contains(&record_kind),
            Kind::Size => true,
        }
    }

    /// The calls of this kind over all records of a pair of streams.
    pub fn calls(self, streams: &Streams) -> Vec<Call> {
        let stream = if self == Kind::Id { &streams.ids } else { &streams.types };
        let kinds = record_kinds(stream);
        let asked = kinds.into_iter().zip(FIRST..).filter(|(kind, _)| self.asked_of(*kind));
        asked.map(|(_, index)| self.call(index)).collect()
    }
}

// The seconds of a call, each way.
#[derive(Clone, Copy)]
pub struct Times {
    single: f64,
    fresh: f64,
    checked: f64,
    warm: f64,
    sheet: f64,
    emit_fresh: f64,
    emit_warm: f64,
    made_string: f64,
    checked_string: f64,
    batch: Option<f64>,
}

pub struct Row {
    pub streams: String,
    pub records: u32,
    pub kind: Kind,
    pub many: usize,
    pub times: Times,
}

pub fn formatter(streams: &Streams) -> TypeFormatter<'_> {
    TypeFormatter::new_from_parts(&streams.types, &streams.ids, 8, TypeFormatterFlags::empty())
}

pub fn plain(streams: &Streams) -> Plain<'_> {
    Plain { types: &streams.types, ids: &streams.ids, pointer_size: 8, flags: 0 }
}

/// Ours into a buffer; a size is a number.
pub fn ours(formatter: &TypeFormatter, call: Call, out: &mut [u8]) -> u64 {
    match call {
        Call::Function(name, index) => formatter.format_function_into(out, name, 0, index.into()).map_or(0, |len| len as u64),
        Call::Id(index) => formatter.format_id_into(out, 0, index.into()).map_or(0, |len| len as u64),
        Call::Type(index) => formatter.format_type_into(out, 0, index.into()).map_or(0, |len| len as u64),
        Call::Size(index) => formatter.get_type_size(0, index.into()).unwrap_or(0),
    }
}

// Ours as a string of its own; a size is a number.
fn our_string(formatter: &TypeFormatter, call: Call) -> (Option<String>, u64) {
    let text = match call {
        Call::Function(_, index) => formatter.format_function(NAME, 0, index.into()),
        Call::Id(index) => formatter.format_id(0, index.into()),
        Call::Type(index) => formatter.format_type(0, index.into()),
        Call::Size(index) => return (None, formatter.get_type_size(0, index.into()).unwrap_or(0)),
    };
    (text.ok(), 0)
}

// Theirs as a string of its own; a size is a number.
fn theirs(formatter: &Theirs, call: Call) -> (Option<String>, u64) {
    let text = match call {
        Call::Function(_, index) => formatter.format_function(NAME, 0, TypeIndex(index)),
        Call::Id(index) => formatter.format_id(0, IdIndex(index)),
        Call::Type(index) => formatter.format_type(0, TypeIndex(index)),
        Call::Size(index) => return (None, formatter.get_type_size(0, TypeIndex(index))),
    };
    (text.ok(), 0)
}

// Theirs into a string that keeps its room; a size is a number.
fn their_emit(formatter: &Theirs, call: Call, text: &mut String) -> u64 {
    text.clear();
    let _ = match call {
        Call::Function(_, index) => formatter.emit_function(text, NAME, 0, TypeIndex(index)),
        Call::Id(index) => formatter.emit_id(text, 0, IdIndex(index)),
        Call::Type(index) => formatter.emit_type(text, 0, TypeIndex(index)),
        Call::Size(index) => return formatter.get_type_size(0, TypeIndex(index)),
    };
    text.len() as u64
}

fn their_formatter<'a>(original: &'a Original<'a>) -> Theirs<'a, 'a> {
    original.formatter(0, MachineType::Amd64)
}

fn our_answer(streams: &Streams, call: Call) -> Answer {
    let mut out = vec![0; 1 << 16];
    let number = plain(streams).ask(call, &mut out).map_err(refusal)?;
    Ok(if let Call::Size(_) = call { number.to_string() } else { String::from_utf8(out[..number as usize].to_vec()).unwrap() })
}

fn checked_answer(formatter: &TypeFormatter, call: Call) -> Result<String, yokberd::Error> {
    let mut out = vec![0; ROOM];
    let len = call.ask(formatter, &mut out)?;
    Ok(String::from_utf8(out[..len].to_vec()).unwrap())
}

// The ids or the types that are asked for, for one batch. There is none of functions and sizes.
struct Batch {
    ids: Vec<yokberd::IdIndex>,
    types: Vec<yokberd::TypeIndex>,
}

impl Batch {
    fn of(calls: &[Call]) -> Option<Self> {
        let mut batch = Batch { ids: Vec::new(), types: Vec::new() };
        for call in calls {
            match call {
                Call::Id(index) => batch.ids.push((*index).into()),
                Call::Type(index) => batch.types.push((*index).into()),
                Call::Function(..) | Call::Size(_) => return None,
            }
        }
        Some(batch)
    }

    // All of them, into buffers that take all.
    fn ask(&self, formatter: &TypeFormatter, out: &mut [u8], answers: &mut [BatchAnswer]) {
        let done = [formatter.format_ids_into(out, answers, &self.ids), formatter.format_types_into(out, answers, &self.types)];
        assert_eq!(black_box(done), [self.ids.len(), self.types.len()]);
    }

    fn compare(&self, formatter: &TypeFormatter, expected: &[Result<String, yokberd::Error>]) {
        let texts = [formatter.format_ids(&self.ids), formatter.format_types(&self.types)].concat();
        assert_eq!(texts, expected, "a batch");
    }
}

fn line(number: usize, answer: &Result<String, yokberd::Error>) -> String {
    match answer {
        Ok(text) => format!("{number} 0 0x0 {text}\n"),
        Err(error) => format!("{number} {} {:#x}\n", error.number(), error.detail()),
    }
}

// Plain and checked calls, the sheet and the batch answer as the original does, fresh and warm.
fn compare(streams: &Streams, few: &[Call], many: &[Call], warm: &Theirs) {
    let (original, formatter) = (Original::new(streams), formatter(streams));
    for call in few {
        let (plain, fresh) = (our_answer(streams, *call), answer(&their_formatter(&original), *call));
        assert_eq!(plain, fresh, "{} {call:?}", streams.name);
    }
    let checked: Vec<_> = many.iter().map(|call| checked_answer(&formatter, *call)).collect();
    let mut lines = String::new();
    let mut sheet = Sheet::new();
    for ((at, call), checked) in many.iter().enumerate().zip(&checked) {
        lines += &line(at + 1, checked);
        assert_eq!(checked.clone().map_err(refusal), answer(warm, *call), "{} {call:?}", streams.name);
        call.add_to(&mut sheet);
    }
    assert!(formatter.sheet_lines(&sheet) == lines.as_bytes(), "{}: the sheet's lines differ", streams.name);
    if let Some(batch) = Batch::of(many) {
        batch.compare(&formatter, &checked);
    }
}

/// Some of the calls, all over them.
pub fn spread(calls: &[Call], count: usize) -> Vec<Call> {
    let count = count.min(calls.len());
    (0..count).map(|part| calls[(2 * part + 1) * calls.len() / (2 * count)]).collect()
}

/// Some of the calls, in no order: so many that one pass of the slower side is short.
pub fn mixed(streams: &Streams, calls: &[Call]) -> Vec<Call> {
    let (formatter, mut out, tried) = (formatter(streams), vec![0; ROOM], spread(calls, 16));
    let one = seconds(each(&tried, |call| ours(&formatter, call, &mut out)).work) / tried.len() as f64;
    let mut mixed = spread(calls, ((PASS / one) as usize).clamp(16, MANY));
    let mut rng = Rng(0x90_0b);
    for at in (1..mixed.len()).rev() {
        mixed.swap(at, rng.below(at + 1));
    }
    mixed
}

/// Each of the calls, asked in some way.
pub fn each<'a, T>(calls: &'a [Call], mut ask: impl FnMut(Call) -> T + 'a) -> Contender<'a> {
    let work = move || {
        for call in calls {
            black_box(ask(*call));
        }
    };
    Contender { calls: calls.len(), work: Box::new(work) }
}

fn measure(streams: &Streams, few: &[Call], many: &[Call]) -> Times {
    let (original, plain, checked) = (Original::new(streams), plain(streams), formatter(streams));
    let warm = their_formatter(&original);
    compare(streams, few, many, &warm);
    let mut sheet = Sheet::new();
    many.iter().for_each(|call| call.add_to(&mut sheet));
    let page_len = checked.sheet_lines(&sheet).len();
    let mut page = vec![0; page_len];
    let (mut out, mut checked_out) = ([0; ROOM], [0; ROOM]);
    let (mut fresh_text, mut warm_text) = (String::with_capacity(ROOM), String::with_capacity(ROOM));
    let print = || assert!(!black_box(checked.print_sheet(&sheet, &mut page, 0)).more);
    let batch = Batch::of(many);
    let (mut texts, mut answers) = (vec![0; page_len], vec![BatchAnswer::default(); many.len()]);
    let mut contenders = vec![
        each(few, |call| plain.ask(call, &mut out)),
        each(few, |call| theirs(&their_formatter(&original), call)),
        each(many, |call| ours(&checked, call, &mut checked_out)),
        each(many, |call| theirs(&warm, call)),
        Contender { calls: many.len(), work: Box::new(print) },
        each(few, |call| their_emit(&their_formatter(&original), call, &mut fresh_text)),
        each(many, |call| their_emit(&warm, call, &mut warm_text)),
        each(few, |call| our_string(&formatter(streams), call)),
        each(many, |call| our_string(&checked, call)),
    ];
    if let Some(batch) = &batch {
        contenders.push(Contender { calls: many.len(), work: Box::new(|| batch.ask(&checked, &mut texts, &mut answers)) });
    }
    let times = in_turns(contenders);
    let [single, fresh, checked, warm, sheet, emit_fresh, emit_warm, made_string, checked_string] = times[..9].try_into().unwrap();
    Times { single, fresh, checked, warm, sheet, emit_fresh, emit_warm, made_string, checked_string, batch: times.get(9).copied() }
}

/// All kinds of calls over a pair of streams.
pub fn compared(streams: &Streams) -> Vec<Row> {
    let rows = KINDS.into_iter().map(|kind| {
        let calls = kind.calls(streams);
        let (few, many) = (spread(&calls, FEW), mixed(streams, &calls));
        let times = measure(streams, &few, &many);
        Row { streams: streams.name.clone(), records: streams.type_count, kind, many: many.len(), times }
    });
    rows.collect()
}

fn start(row: &Row) -> [String; 3] {
    [format!("`{}`", row.streams), thousands(f64::from(row.records)), row.kind.name().into()]
}

/// The times in microseconds and their ratios, below 1 where ours is faster.
pub fn print(title: &str, rows: &[Row]) {
    let columns = ["Streams", "Records", "Call", "Single", "Fresh", "**Ratio**", "Checked once", "Warm", "**Ratio**", "A sheet's line", "**To warm**"];
    head(title, &columns);
    for of in rows {
        let Times { single, fresh, checked, warm, sheet, .. } = of.times;
        let (single_cells, checked_cells) =
            ([micros(single), micros(fresh), ratio(single / fresh)], [micros(checked), micros(warm), ratio(checked / warm)]);
        row(&[&start(of)[..], &single_cells, &checked_cells, &[micros(sheet), ratio(sheet / warm)]].concat());
    }
}

/// The ratios with no string made on either side, with one made on both, and of a batch into buffers.
pub fn print_like_for_like(title: &str, rows: &[Row]) {
    let columns = [
        "Streams",
        "Records",
        "Call",
        "Single / fresh `emit_`",
        "Checked once / warm `emit_`",
        "New formatter, `String` / fresh",
        "`String` / warm",
        "A batch's answer / warm",
    ];
    head(title, &columns);
    for of in rows.iter().filter(|row| text(row)) {
        let Times { single, fresh, checked, warm, emit_fresh, emit_warm, made_string, checked_string, batch, .. } = of.times;
        let ratios = [single / emit_fresh, checked / emit_warm, made_string / fresh, checked_string / warm];
        row(&[&start(of)[..], &ratios.map(ratio), &[batch.map_or("-".into(), |batch| ratio(batch / warm))]].concat());
    }
}

/// How the cost grows with the stream: with the check by its length, without it not at all.
pub fn print_growth(rows: &[Row]) {
    let columns = ["Bytes", "Records", "Call", "Single", "To the streams before", "ns a record", "Checked", "To the streams before", "Lines of the sheet"];
    head("How the cost of a call grows", &columns);
    let mut before: [Option<Times>; 4] = [None; 4];
    for Row { streams, records, kind, many, times, .. } in rows {
        let last = &mut before[*kind as usize];
        row(&[
            streams.clone(),
            thousands(f64::from(*records)),
            kind.name().into(),
            micros(times.single),
            grown(times.single, last.map(|last| last.single)),
            format!("{:.2}", times.single * 1e9 / f64::from(*records)),
            micros(times.checked),
            grown(times.checked, last.map(|last| last.checked)),
            thousands(*many as f64),
        ]);
        *last = Some(*times);
    }
}

// What is to be reached: a name, which rows it is for, the ratio, and the most that it may be.
struct Target {
    name: &'static str,
    of: fn(&Row) -> bool,
    ratio: fn(&Times) -> f64,
    most: f64,
}

fn text(row: &Row) -> bool {
    row.kind != Kind::Size
}

const TARGETS: [Target; 5] = [
    Target { name: "single to fresh", of: |_| true, ratio: |times| times.single / times.fresh, most: 0.9 },
    Target {
        name: "checked to warm, texts, up to 60,000 records",
        of: |row| text(row) && row.records <= 60_000,
        ratio: |times| times.checked / times.warm,
        most: 0.9,
    },
    Target { name: "checked to warm, texts, beyond", of: |row| text(row) && row.records > 60_000, ratio: |times| times.checked / times.warm, most: 1.2 },
    Target {
        name: "a sheet's line to warm, texts, up to 60,000 records",
        of: |row| text(row) && row.records <= 60_000,
        ratio: |times| times.sheet / times.warm,
        most: 0.9,
    },
    Target {
        name: "a sheet's line to warm, texts, beyond",
        of: |row| text(row) && row.records > 60_000,
        ratio: |times| times.sheet / times.warm,
        most: 0.9,
    },
];

/// Which targets are reached, on streams of 60 records and more, and where they are not.
pub fn print_targets(rows: &[Row]) {
    head("Targets, on streams of 60 records and more", &["Ratio", "At most", "Reached", "Worst", "Missed"]);
    for target in TARGETS {
        let asked: Vec<_> = rows.iter().filter(|row| row.records >= 60 && (target.of)(row)).collect();
        let of = |row: &Row| (target.ratio)(&row.times);
        let missed: Vec<_> = asked.iter().filter(|row| of(row) > target.most).collect();
        let said: Vec<_> = missed.iter().map(|row| format!("{} {}: {}", row.streams, row.kind.name(), ratio(of(row)))).collect();
        let worst = asked.iter().map(|row| of(row)).fold(0.0, f64::max);
        let reached = format!("{} of {}", asked.len() - missed.len(), asked.len());
        row(&[target.name.into(), target.most.to_string(), reached, ratio(worst), said.join("; ")]);
    }
}

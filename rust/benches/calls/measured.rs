//! Measures beside the calls that write the text: the same indexes of the same streams, in turns, in one process. All are compared first.
use crate::common::{Call, Streams};
use crate::side_by_side::{each, formatter, mixed, ours, plain, spread, Kind, FEW, KINDS, ROOM};
use crate::table::{head, micros, ratio, row, thousands};
use crate::timing::in_turns;

// A measure has the length of the text, and is refused where the text call is. All texts of these streams are shorter than the buffer.
fn compare(streams: &Streams, calls: &[Call]) {
    let (plain, checked, mut out) = (plain(streams), formatter(streams), [0; ROOM]);
    for call in calls {
        let (length, measure) = (plain.ask(*call, &mut out), plain.measure(*call));
        assert_eq!(measure.map(|measure| measure.length as u64), length, "{} {call:?}", streams.name);
        assert_eq!(call.measure(&checked), measure, "{} {call:?}", streams.name);
    }
}

// The seconds of a call that writes and of a measure: single, and over streams checked once.
fn times(streams: &Streams, kind: Kind) -> [f64; 4] {
    let (plain, checked, calls) = (plain(streams), formatter(streams), kind.calls(streams));
    let (few, many) = (spread(&calls, FEW), mixed(streams, &calls));
    compare(streams, &few);
    compare(streams, &spread(&many, FEW));
    let (mut out, mut checked_out) = ([0; ROOM], [0; ROOM]);
    let contenders = vec![
        each(&few, |call| plain.ask(call, &mut out)),
        each(&few, |call| plain.measure(call).map(|measure| measure.length as u64)),
        each(&many, |call| ours(&checked, call, &mut checked_out)),
        each(&many, |call| call.measure(&checked).map_or(0, |measure| measure.length as u64)),
    ];
    in_turns(contenders).try_into().unwrap()
}

/// All kinds of texts, over all of the streams.
pub fn print(all: &[Streams]) {
    let columns = ["Streams", "Records", "Call", "Single", "Its measure", "**Ratio**", "Checked once", "Its measure", "**Ratio**"];
    head("Measures beside the text calls, in microseconds", &columns);
    let mut all_ratios = Vec::new();
    for streams in all {
        for kind in KINDS.into_iter().filter(|kind| *kind != Kind::Size) {
            let [single, measure, checked, checked_measure] = times(streams, kind);
            let (ratios, start) = ([measure / single, checked_measure / checked], [format!("`{}`", streams.name), thousands(streams.type_count.into())]);
            let single_cells = [kind.name().into(), micros(single), micros(measure), ratio(ratios[0])];
            row(&[&start[..], &single_cells, &[micros(checked), micros(checked_measure), ratio(ratios[1])]].concat());
            all_ratios.extend(ratios);
        }
    }
    all_ratios.sort_by(f64::total_cmp);
    println!(
        "\nOf {} ratios the middle one is {} and the most {}.",
        all_ratios.len(),
        ratio(all_ratios[all_ratios.len() / 2]),
        ratio(all_ratios[all_ratios.len() - 1])
    );
}

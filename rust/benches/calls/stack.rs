//! The stack of the deepest calls.
use crate::common::library::{Batch, Plain};
use crate::common::{self, Call, FIRST};
use crate::table::{head, row};
use std::process::Command;
use std::{env, fs};
use yokberd::{fill_places, PlacedFormatter, Sheet, TypeFormatter, TypeFormatterFlags};

/// In a fresh process, which row of `deep_rows` to ask for and how: its number, a colon and one of `WAYS`; or `none`.
pub const STACK_OF: &str = "YOKBERD_STACK_OF";
const WAYS: [&str; 6] = ["plain", "checked", "sheet", "batch", "placed", "measured"];

// What no call may take.
const MOST: u64 = 512;

// The resident pages of the first thread's stack, in KiB.
fn pages() -> u64 {
    let maps = fs::read_to_string("/proc/self/smaps").unwrap();
    let stack = &maps[maps.find("[stack]").unwrap()..];
    let pages = stack.lines().find_map(|line| line.strip_prefix("Rss:")).unwrap();
    pages.trim().trim_end_matches(" kB").parse().unwrap()
}

/// What a fresh process says of its stack after a row was asked for.
pub fn after(row: &str) {
    let rows = common::deep_rows();
    let mut out = vec![0; 8192];
    if let Some((at, way)) = row.split_once(':') {
        let (types, call) = (&rows[at.parse::<usize>().unwrap()].1, Call::Type(FIRST));
        let plain = Plain { types, ids: types, pointer_size: 8, flags: 0 };
        let formatter = || TypeFormatter::new_from_parts(types, types, 8, TypeFormatterFlags::empty());
        let (mut sheet, mut answers) = (Sheet::new(), [1; 4]);
        call.add_to(&mut sheet);
        match way {
            "plain" => assert!(plain.ask(call, &mut out).is_ok()),
            "measured" => assert!(plain.measure(call).is_ok()),
            "batch" => assert_eq!((plain.batch(Batch::Types, &[FIRST], &mut out, &mut answers), answers[0]), (1, 0)),
            "sheet" => assert!(formatter().print_sheet(&sheet, &mut out, 0).lines == 1),
            "placed" => {
                let places = fill_places(types).unwrap();
                let placed = PlacedFormatter::new(types, types, &places, 8, TypeFormatterFlags::empty());
                assert!(placed.format_type_into(&mut out, 0, FIRST.into()).is_ok());
            }
            _ => assert!(call.ask(&formatter(), &mut out).is_ok()),
        }
    }
    println!("{}", pages());
}

fn in_a_fresh_process(row: &str) -> u64 {
    let said = Command::new(env::current_exe().unwrap()).env(STACK_OF, row).output().unwrap();
    String::from_utf8(said.stdout).unwrap().trim().parse().unwrap()
}

pub fn print() {
    let columns = ["A row of as many open indexes as there may be", "Single", "Checked once", "In a sheet", "In a plain batch", "Over places", "Measured"];
    head("Stack of one call, in KiB", &columns);
    let (none, mut most) = (in_a_fresh_process("none"), 0);
    for (at, (name, _)) in common::deep_rows().iter().enumerate() {
        let taken = WAYS.map(|way| in_a_fresh_process(&format!("{at}:{way}")).saturating_sub(none));
        most = most.max(*taken.iter().max().unwrap());
        row(&[&[(*name).to_string()], &taken.map(|taken| taken.to_string())[..]].concat());
    }
    println!("\nThe most is {most} KiB, {} {MOST} KiB.", if most < MOST { "below" } else { "NOT below" });
}

// Results as they stand in lent memory.

use ffi::TABLE_ENTRIES;
use shared::model::analysis::Analysis;
use shared::model::finder::Report;
use shared::model::findings::Findings;
use shared::model::log::Record;
use shared::model::padding::State;
use shared::model::patterns::Entry;
use shared::model::statistics::Statistics;
use shared::model::{bvlc, ethernet, mstp};

// What stands at the front of each lent memory after a call, number by number.
pub type Written = Vec<Vec<u64>>;

// Numbers as they stand in a lent memory.
pub fn numbers<T: Copy + TryInto<u64>>(numbers: &[T]) -> Vec<u64> {
    let wide = |number: &T| (*number).try_into().ok().expect("64 bits");
    numbers.iter().map(wide).collect()
}

// A list's numbers in one memory, and a count in another.
fn counted<T: Copy + TryInto<u64>>(list: &[T], count: usize) -> Written {
    vec![numbers(list), numbers(&[count])]
}

pub trait InMemory {
    fn written(&self) -> Written;
}

// A line for each kind of result: what it writes, memory by memory.
macro_rules! in_memory {
    ($($kind:ty: $result:ident => $written:expr;)*) => {
        $(
            impl InMemory for $kind {
                fn written(&self) -> Written {
                    let $result = self;
                    $written
                }
            }
        )*
    };
}

in_memory! {
    (): _nothing => Vec::new();
    // A check or a count.
    usize: number => vec![numbers(&[*number])];
    // A check table.
    [u8; TABLE_ENTRIES]: table => vec![numbers(table)];
    [u16; TABLE_ENTRIES]: table => vec![numbers(table)];
    // Octets in an output.
    Vec<u8>: octets => counted(octets, octets.len());
    mstp::Frame<'_>: frame => vec![numbers(&frame.numbers())];
    bvlc::Header: header => vec![numbers(&[u16::from(header.function), header.length])];
    ethernet::Frame<'_>: frame => {
        let [destination, source] = frame.addresses.map(|address| numbers(&address));
        vec![destination, source, numbers(&[ethernet::BEFORE, frame.payload.len()])]
    };
    Findings: findings => vec![numbers(&findings.numbers())];
    Statistics: counted => vec![numbers(&counted.counts), numbers(&counted.numbers())];
    State: state => vec![numbers(&state.numbers())];
    // Patterns in a list.
    Vec<Entry>: entries => counted(entries.as_flattened(), entries.len());
    Analysis: whole => {
        let (findings, counted) = (whole.findings.written(), whole.statistics.written());
        [findings, counted, whole.patterns.written()].concat()
    };
    Report: report => vec![numbers(&<[usize; 2]>::from(*report))];
    // Reports in a list.
    Vec<Report>: reports => {
        let pairs: Vec<[usize; 2]> = reports.iter().map(|report| (*report).into()).collect();
        counted(pairs.as_flattened(), reports.len())
    };
    Record: record => vec![numbers(&record.numbers())];
}

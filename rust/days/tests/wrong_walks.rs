//! A query walks back along its revision's order and stops at the last Time or Strike of its bib. The
//! walk is made here along the cells of the baseline's table; walks that stop elsewhere, or apply what
//! they kept otherwise, are found by the literal replay.

use std::iter::once;

use calls::{Answer, Call, Code, BOARD, STRIKE};
use days::{disagreement_by, must_find, must_pass, seeds, stands, Profile};
use literal::Update;

/// Where the parts lie: docs/CELLS.md.
const LOW: usize = 32_256;
const HIGH: usize = 36_352;
const USED: usize = 39_104;
const LAST: usize = 39_168;
const COUNT: usize = 39_424;
const BASE: usize = 39_552;
const LAYOUT: usize = 39_680;
const OUT: usize = 39_826;
const ENTRIES: usize = 40_960;

/// An update that a walk comes to.
#[derive(Clone, Copy)]
struct Met {
    update: Update,
    /// Whether it is in the revision's own list.
    own: bool,
    /// Whether the revision sees it.
    seen: bool,
}

/// What is made of a query: of the updates that the walk comes to, the last one first, those that are
/// applied, the first one first.
type Walk = fn(Vec<Met>, u16) -> Vec<Met>;

const RIGHT: Walk = |met, bib| kept(met, bib, |met| met.seen && met.update.bib == bib && sets(met));

const WRONG: [(&str, Walk); 7] = [
    ("stops at an Earliest", |met, bib| {
        kept(met, bib, |met| {
            met.seen && met.update.bib == bib && (sets(met) || met.update.kind == 2)
        })
    }),
    ("stops at a Penalty", |met, bib| {
        kept(met, bib, |met| {
            met.seen && met.update.bib == bib && (sets(met) || met.update.kind == 3)
        })
    }),
    ("stops at another bib's Time or Strike", |met, bib| {
        kept(met, bib, |met| met.seen && sets(met))
    }),
    ("stops at a Time or Strike that is not seen", |met, bib| {
        kept(met, bib, |met| met.update.bib == bib && sets(met))
    }),
    ("applies what came after in backward order", |met, bib| {
        let mut kept = RIGHT(met, bib);
        if let Some((_, after)) = kept.split_first_mut() {
            after.reverse();
        }
        kept
    }),
    ("leaves out the update at which it stops", |met, bib| {
        let mut kept = RIGHT(met, bib);
        if kept.first().is_some_and(sets) {
            kept.remove(0);
        }
        kept
    }),
    ("stops at the end of its own list", |met, bib| {
        RIGHT(met.into_iter().filter(|met| met.own).collect(), bib)
    }),
];

/// Whether the effect is the same however the bib stood.
fn sets(met: &Met) -> bool {
    [1, STRIKE].contains(&met.update.kind)
}

/// Those seen of the bib up to the first at which the walk stops, the first one first.
fn kept(met: Vec<Met>, bib: u16, stops: impl Fn(&Met) -> bool) -> Vec<Met> {
    let last = met.iter().position(stops).map_or(met.len(), |place| place + 1);
    let mut kept = met[..last].to_vec();
    kept.retain(|met| met.seen && met.update.bib == bib);
    kept.reverse();
    kept
}

fn word(t: &[u8], part: usize, r: u8) -> usize {
    let at = part + 2 * usize::from(r);
    usize::from(u16::from_le_bytes([t[at], t[at + 1]]))
}

/// The update of a number.
fn update(t: &[u8], u: usize) -> Update {
    let entry = &t[ENTRIES + 6 * u..][..6];
    Update {
        kind: 1 + (entry[1] >> 2 & 3),
        client: entry[1] >> 4,
        bib: u16::from_le_bytes([entry[0], entry[1] & 3]),
        v: u32::from_le_bytes([entry[2], entry[3], entry[4], entry[5]]),
    }
}

/// All that a walk back from the end of a revision's order comes to: its own list, then the lists of
/// the revisions behind it in the layout, the nearest first.
fn met(t: &[u8], r: u8) -> Vec<Met> {
    let outs = &t[LAYOUT..LAYOUT + usize::from(t[OUT])];
    let behind = outs.iter().copied().skip_while(|&other| other != r).skip(1);
    let in_row = |u: usize| {
        let row = 512 * (usize::from(r).max(1) - 1);
        r != 0 && t[USED + usize::from(r)] == 1 && t[row + u / 8] >> (u % 8) & 1 == 1
    };
    let mut all = Vec::new();
    for list in once(r).chain(behind) {
        let own = list == r;
        let base = if list == 0 { word(t, BASE, r) } else { 0 };
        let mut u = word(t, LAST, list);
        for place in (0..word(t, COUNT, list)).rev() {
            all.push(Met { update: update(t, u), own, seen: own || place < base || in_row(u) });
            u = usize::from(t[LOW + u]) + 256 * usize::from(t[HIGH + u / 2] >> (4 * (u % 2)) & 15);
        }
    }
    all
}

/// The baseline, with each query answered by a walk; against the literal replay.
fn by_walk(walk: Walk) -> impl Fn(&[Call]) -> Option<String> {
    move |calls| {
        let mut t = baseline::Day::fresh().bytes().to_vec();
        disagreement_by(calls, |call| {
            let answer =
                baseline::call(&mut t, &mut [0; BOARD], call).unwrap_or_else(Answer::refused);
            match *call {
                Call::Query { revision, bib, .. } if answer.code == Code::Accepted => {
                    let applied = walk(met(&t, revision), bib).into_iter().map(|met| met.update);
                    let (state, value) = stands(applied, bib);
                    Answer { state, value, ..answer }
                }
                _ => answer,
            }
        })
    }
}

/// Days on which queries come between updates of few bibs, on revisions of which some see not all.
const KINDS: [Profile; 3] = [Profile::SMALL, Profile::NESTED, Profile::STRIKES];

#[test]
fn a_walk_that_stops_at_the_last_time_or_strike_is_right() {
    must_pass(KINDS.into_iter().flat_map(|kind| kind.days(seeds(150))), by_walk(RIGHT));
}

#[test]
fn wrong_walks_are_found() {
    for (name, walk) in WRONG {
        must_find(name, KINDS.into_iter().flat_map(|kind| kind.days(0..40)), by_walk(walk));
    }
}

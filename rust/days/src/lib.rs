//! Random days, and the checkers that judge them.
//!
//! Days are made from a seed, but for the short ones of [`late_days`]. A failed check prints the
//! seed, and the shortest day found that still fails. There are sixteen checks:
//!
//! - the literal replay and the baseline agree on every answer;
//! - an arbitration order (01: line-up) has what demand 3 says of it, by brute force;
//! - the fills of all revisions come to the updates accepted;
//! - numbers are given, and mean a revision that is out, by the order of the hand-ins;
//! - a bundle is its updates and a yield;
//! - a preview is the join on a copy, as a list and a query there have it;
//! - a sync is the join into the main revision and the fork of it;
//! - single-main days have what 02's U8 asks to show of them;
//! - marks have names and lists by the calls before, and refuse what they must;
//! - what comes of a mark is taken over by nothing that does not;
//! - joins and syncs leave the table but at few places;
//! - a verify says yes to the day's own line-up, and to others what the literal replay says;
//! - a board is right after every call, and any other has what its promise says;
//! - bills are those of the calls before, and never fall;
//! - four courses on one card answer as four literal replays do, and write in their own tables alone;
//! - they have what 02's U12 asks to show of them.

#![forbid(unsafe_code)]

mod arbitration;
mod beginning;
mod bills;
mod boards;
mod branching;
mod bundles;
mod card;
mod chains;
mod claims;
mod clubs;
mod compare;
mod copies;
mod courses;
mod facts;
mod federating;
mod fills;
mod generator;
mod history;
mod judge;
mod juries;
mod late;
mod light;
mod line_up;
mod marks;
mod meeting;
mod naming;
mod numbers;
mod orders;
mod origins;
mod previews;
mod profile;
mod reads;
mod records;
mod reuse;
mod rng;
mod sample;
mod single_main;
mod spoiling;
mod syncs;
pub mod tally;
mod verdicts;

pub use arbitration::arbitration_order;
pub use bills::{bill_of, fault_of_bills};
pub use boards::{brought, fault_of_boards, may_change_boards, post, rightly_left};
pub use bundles::{fault_of_bundles, updates_of};
pub use card::{CardProfile, CardStep, Damage};
pub use chains::chains_of_joins;
pub use claims::{fault_of_agreement, fault_of_claims};
pub use compare::{
    disagreement, disagreement_by, disagreement_with_previews, disagreement_with_reads,
};
pub use courses::{fault_of_courses, Judged};
pub use facts::{stands, Facts, Step, View};
pub use fills::fault_of_fills;
pub use generator::random_day;
pub use judge::{must_find, must_pass};
pub use late::late_days;
pub use light::Heaviest;
pub use line_up::{broken_sentence, SENTENCES};
pub use marks::fault_of_marks;
pub use meeting::meeting;
pub use numbers::fault_of_numbers;
pub use origins::fault_of_origins;
pub use previews::fault_of_previews;
pub use profile::{Profile, Weights};
pub use reads::{every_fill, every_list, every_preview};
pub use rng::Rng;
pub use sample::{card_days_of, days_of, once_in, one_in, seeds, Sample, Steps};
pub use single_main::{strange_code, unseen_by_a_start};
pub use syncs::fault_of_syncs;
pub use verdicts::{every_order, fault_of_orders, own_order};

//! Random days of all kinds: the literal replay and the baseline give the same code, state, value,
//! total, gain and listing for every call, and the baseline's board is as worked out afresh.

use std::collections::BTreeMap;

use calls::{Call, Code, State, BIBS, KINDS, REVISIONS};
use days::{
    chains_of_joins, disagreement, disagreement_with_previews, disagreement_with_reads, late_days,
    must_pass, once_in, one_in, seeds, Profile, Sample,
};
use literal::Revision;

/// The last revision's number, which is how many can be joined.
const LAST: u32 = REVISIONS as u32 - 1;

#[test]
fn small_days_agree_in_every_listing_and_fill_after_every_step() {
    must_pass(Profile::SMALL.days(seeds(3_000)), disagreement_with_reads);
}

#[test]
fn small_days_agree_in_every_preview_after_every_step() {
    must_pass(Profile::SMALL.days(seeds(200)), |calls| {
        disagreement_with_previews(calls, &[0, 1, BIBS])
    });
}

/// 02, U7: on numbers that were all borne before.
#[test]
fn small_days_on_reused_numbers_agree_after_every_step() {
    must_pass(Profile::SMALL_REUSED.days(seeds(60)), disagreement_with_reads);
    must_pass(Profile::SMALL_REUSED.days(0..2), |calls| disagreement_with_previews(calls, &[0]));
}

/// 02, U8: where 15 hides what a join would give, previews do too.
#[test]
fn small_single_main_days_agree_after_every_step() {
    must_pass(Profile::SMALL_SINGLE_MAIN.days(seeds(400)), disagreement_with_reads);
    must_pass(Profile::SMALL_SINGLE_MAIN.days(seeds(60)), |calls| {
        disagreement_with_previews(calls, &[0, 1, BIBS])
    });
}

/// 02, U9: with marked revisions out, and dropped ones.
#[test]
fn small_marked_days_agree_after_every_step() {
    must_pass(Profile::SMALL_MARKED.days(seeds(1_200)), disagreement_with_reads);
    must_pass(Profile::SMALL_MARKED.days(seeds(60)), |calls| {
        disagreement_with_previews(calls, &[0, BIBS])
    });
}

#[test]
fn days_of_all_kinds_agree() {
    must_pass(one_in(1), disagreement);
}

#[test]
fn chains_of_joins_agree() {
    must_pass(chains_of_joins(seeds(100)), disagreement);
    must_pass(chains_of_joins(0..20), disagreement_with_reads);
}

#[test]
fn days_with_late_updates_agree() {
    must_pass(late_days(), disagreement_with_reads);
}

/// The random days are worth replaying: each call meets each of its codes, many times over.
#[test]
fn every_call_meets_each_of_its_codes() {
    let mut met: BTreeMap<(&str, u8), usize> = BTreeMap::new();
    for Sample { calls, .. } in once_in(1) {
        let mut day = baseline::Day::fresh();
        for call in calls {
            *met.entry((call.name(), day.call(&call).code.number())).or_default() += 1;
        }
    }
    let codes: [(&str, &[u8]); 14] = [
        ("update", &[0, 2, 3, 4, 5, 6, 7, 8, 9, 16]),
        ("query", &[0, 2, 3, 4, 5, 6, 7, 8, 16]),
        ("yield", &[0, 2, 19]),
        ("fork", &[0, 3, 4, 7, 10, 15]),
        ("join", &[0, 3, 4, 7, 11, 15, 16, 19]),
        ("list", &[0, 3, 4, 7, 12]),
        ("fill", &[0, 3, 4]),
        ("bundle", &[0, 2, 3, 4, 5, 6, 7, 8, 9, 14, 16, 19]),
        ("preview", &[0, 3, 4, 5, 7, 11, 15, 16]),
        ("fresh", &[0, 19]),
        ("sync", &[0, 3, 4, 7, 11, 16, 19]),
        ("mark", &[0, 3, 4, 7, 10, 15, 17]),
        ("drop", &[0, 18]),
        ("verify", &[0, 21]),
    ];
    for (call, codes) in codes {
        let of_call = met.iter().filter(|((name, _), _)| *name == call);
        let found: Vec<u8> = of_call.map(|((_, code), _)| *code).collect();
        assert_eq!(found, codes, "codes of {call}");
        for &code in codes {
            let times = met[&(call, code)];
            assert!(times >= 30, "{call} met code {code} only {times} times");
        }
    }
}

/// What queries found.
#[derive(Default)]
struct Found {
    states: BTreeMap<State, usize>,
    /// Of bibs whose last update but one is a strike: the last one, and the state.
    after_strike: BTreeMap<(&'static str, State), usize>,
    /// How often the last one was entered before that strike.
    brought_late: usize,
}

impl Found {
    /// Notes an accepted query of a day.
    fn note(&mut self, day: &literal::Day, revision: u8, bib: u16, state: State) {
        *self.states.entry(state).or_default() += 1;
        let Some(revision) = day.meant(revision) else { return };
        let mut visible = day.visible(revision);
        visible.retain(|&number| day.updates()[number].bib == bib);
        let [.., before, last] = visible[..] else { return };
        if day.updates()[before].kind == calls::STRIKE {
            let name = name_of(day.updates()[last]);
            *self.after_strike.entry((name, state)).or_default() += 1;
            self.brought_late += usize::from(last < before);
        }
    }
}

/// Queries find a bib in each of the three states, and after each kind of update that follows a
/// strike: 02, U2, "Earliest and Penalty leave it so; only Time lifts it".
#[test]
fn queries_find_bibs_in_every_state() {
    let mut found = Found::default();
    for Sample { calls, .. } in once_in(2) {
        let mut day = literal::Day::fresh();
        for call in calls {
            let answer = day.call(&call);
            match call {
                Call::Query { revision, bib, .. } if answer.code == Code::Accepted => {
                    found.note(&day, revision, bib, answer.state);
                }
                _ => {}
            }
        }
    }
    let Found { states, after_strike, brought_late } = found;
    let all: usize = states.values().sum();
    assert_eq!(states.len(), 3, "{states:?}");
    assert!(states.values().all(|&times| times >= all / 6), "{states:?}");
    let expected = [
        ("Earliest", State::Struck),
        ("Penalty", State::Struck),
        ("Strike", State::Struck),
        ("Time", State::Timed),
        ("Time 0", State::Neither),
    ];
    assert!(after_strike.keys().eq(&expected), "{after_strike:?}");
    assert!(after_strike.values().all(|&times| times >= 50), "{after_strike:?}");
    assert!(brought_late >= 30, "{brought_late} updates were brought behind a later strike");
}

fn name_of(update: literal::Update) -> &'static str {
    match (update.kind, update.v) {
        (1, 0) => "Time 0",
        (kind, _) => KINDS[usize::from(kind) - 1],
    }
}

/// Fills are made of revisions of every kind, many times over.
#[test]
fn fills_of_every_kind_are_made() {
    let mut met: BTreeMap<&str, usize> = BTreeMap::new();
    for Sample { calls, .. } in once_in(2) {
        let mut day = literal::Day::fresh();
        for call in calls {
            if let Call::Fill { revision } = call {
                *met.entry(kind_of(&day, revision)).or_default() += 1;
            }
            day.call(&call);
        }
    }
    let kinds = ["above 63", "busy", "dropped", "joined", "marked", "never forked", "out and idle"];
    assert!(met.keys().eq(&kinds), "{met:?}");
    assert!(met.values().all(|&times| times >= 100), "{met:?}");
}

fn kind_of(day: &literal::Day, number: u8) -> &'static str {
    let Some(meant) = day.meant(number) else {
        return if number >= REVISIONS { "above 63" } else { "never forked" };
    };
    let open = |t: &literal::Transaction| t.revision == meant && t.is_open();
    match day.revisions()[meant] {
        Revision { out: false, mark: None, .. } => "joined",
        Revision { out: false, mark: Some(_), .. } => "dropped",
        Revision { mark: Some(_), .. } => "marked",
        _ if day.transactions().iter().any(open) => "busy",
        _ => "out and idle",
    }
}

/// The codes of a day's calls.
fn codes(calls: &[Call]) -> Vec<Code> {
    let mut day = baseline::Day::fresh();
    calls.iter().map(|call| day.call(call).code).collect()
}

#[test]
fn full_logs_are_reached_and_joins_follow() {
    let joined_when_full = |day: &Sample| {
        let codes = codes(&day.calls);
        let answered = day.calls.iter().zip(&codes);
        let mut since_full = answered.skip_while(|(_, &code)| code != Code::LogFull);
        since_full.any(|(call, &code)| call.name() == "join" && code == Code::Accepted)
    };
    let days = Profile::FULL.days(0..12).filter(joined_when_full).count();
    assert!(days >= 6, "full logs with joins after them: {days}");
}

#[test]
fn sixty_four_revisions_are_out() {
    let refused = |day: &Sample| codes(&day.calls).contains(&Code::NoneLeft);
    let days = Profile::FORKS.days(0..100).filter(refused).count();
    assert!(days >= 30, "days with 64 revisions out: {days}");
}

#[test]
fn chains_of_joins_are_accepted_and_as_long_as_can_be() {
    let joins = chains_of_joins(0..100).map(|day| {
        for (call, code) in day.calls.iter().zip(codes(&day.calls)) {
            let entered = !["fork", "join"].contains(&call.name());
            assert!(code == Code::Accepted || entered, "{day}: {call}");
        }
        day.calls.iter().filter(|call| call.name() == "join").count()
    });
    assert_eq!(joins.max(), Some(LAST as usize), "joins of one day");
}

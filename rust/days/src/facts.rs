//! What demand 3 speaks of, read off the literal day: who sees whom, by a path search for each pair
//! of vertices, and what stood where before and after each call.

use calls::{Answer, Call, State};
use literal::{Day, Revision, Standing, Transaction, Update, VertexId, VertexKind};

/// A call of the day.
#[derive(Clone, Debug)]
pub struct Step {
    /// The call.
    pub call: Call,
    /// What it answered.
    pub answer: Answer,
    /// The size of the diagram before it, which is the place of the first vertex that it adds.
    pub vertices: usize,
    /// Which of the transactions begun before it were closed then.
    pub closed: Vec<bool>,
}

/// A revision that is out, at some time of the day.
#[derive(Clone, Debug)]
pub struct View {
    /// Its last vertex.
    pub terminal: usize,
    /// Its visible updates, in the listing's order.
    pub updates: Vec<usize>,
}

/// A day and all that demand 3 says about it. Vertices and transactions go by their places.
#[derive(Clone, Debug)]
pub struct Facts {
    /// The vertices.
    pub kinds: Vec<VertexKind>,
    /// `sees[x][y]`: a path leads from y to x.
    pub sees: Vec<Vec<bool>>,
    /// The transactions, in the order of their first events.
    pub transactions: Vec<Transaction>,
    /// The updates accepted, by number.
    pub updates: Vec<Update>,
    /// The calls.
    pub steps: Vec<Step>,
    /// The view of each revision, in the order of their starts, before the first call and after each
    /// one; none once it is joined or dropped.
    pub views: Vec<Vec<Option<View>>>,
}

impl Facts {
    /// The day of these calls, and its facts; the last one, if a table is made fresh among them.
    pub fn of(calls: &[Call]) -> (Day, Facts) {
        let fresh = calls.iter().rposition(|call| matches!(call, Call::Fresh { .. }));
        let mut day = Day::fresh();
        let mut views = vec![views_now(&day)];
        let mut steps = Vec::new();
        for call in &calls[fresh.unwrap_or(0)..] {
            let vertices = day.diagram().size();
            let closed = day.transactions().iter().map(|t| !t.is_open()).collect();
            let answer = day.call(call);
            steps.push(Step { call: call.clone(), answer, vertices, closed });
            views.push(views_now(&day));
        }
        let diagram = day.diagram();
        let row = |x| diagram.vertices().map(|y| day.sees(x, y)).collect();
        let facts = Facts {
            kinds: diagram.vertices().map(|x| diagram.kind(x)).collect(),
            sees: diagram.vertices().map(row).collect(),
            transactions: day.transactions().to_vec(),
            updates: day.updates().to_vec(),
            steps,
            views,
        };
        (day, facts)
    }

    /// The events of a transaction, as entered.
    pub fn events(&self, transaction: usize) -> impl Iterator<Item = usize> + '_ {
        self.transactions[transaction].events.iter().map(|x: &VertexId| x.place())
    }

    /// The number of the update at a vertex, if it is one.
    pub fn number(&self, x: usize) -> Option<usize> {
        match self.kinds[x] {
            VertexKind::Update(number) => Some(number),
            _ => None,
        }
    }

    /// Whether transaction t sees transaction s: "if one of its events sees one of the other's".
    pub fn transaction_sees(&self, t: usize, s: usize) -> bool {
        self.events(t).any(|x| self.events(s).any(|y| self.sees[x][y]))
    }

    /// The updates that a vertex sees, in arbitration order, and as entered within a
    /// transaction.
    pub fn seen_in_order(&self, order: &[usize], x: usize) -> Vec<usize> {
        let events = order.iter().flat_map(|&t| self.events(t));
        events.filter(|&y| self.sees[x][y]).filter_map(|y| self.number(y)).collect()
    }
}

/// How a bib stands after these updates, applied to the fresh values in this order: state and value.
pub fn stands(updates: impl Iterator<Item = Update>, bib: u16) -> (State, u32) {
    let of_bib = updates.filter(|update| update.bib == bib);
    let standing = of_bib.fold(Standing::FRESH, |standing, update| update.applied_to(standing));
    (standing.state(), standing.value())
}

fn views_now(day: &Day) -> Vec<Option<View>> {
    let view = |(place, revision): (usize, &Revision)| {
        let view = View { terminal: revision.terminal.place(), updates: day.visible(place) };
        revision.out.then_some(view)
    };
    day.revisions().iter().enumerate().map(view).collect()
}

//! The record of the day: 01, "The plain day and its line-up".

use crate::diagram::{Diagram, VertexId};
use crate::numbering::Numbering;
use crate::update::Update;

/// How many clients there are: 0 to 15.
pub(crate) const CLIENTS: usize = 16;

/// "a name of four letters A to Z"
pub type Name = [u8; 4];

/// A revision that was started.
#[derive(Clone, Copy, Debug, PartialEq, Eq)]
pub struct Revision {
    /// Its start vertex.
    pub start: VertexId,
    /// Its last vertex.
    pub terminal: VertexId,
    /// Whether it was neither joined nor dropped.
    pub out: bool,
    /// The name that it got, if a mark started it.
    pub mark: Option<Name>,
}

impl Revision {
    /// One that starts with this vertex.
    pub(crate) fn starting(start: VertexId, mark: Option<Name>) -> Self {
        Revision { start, terminal: start, out: true, mark }
    }
}

/// The events of a client between yields.
#[derive(Clone, Debug, PartialEq, Eq)]
pub struct Transaction {
    /// Whose it is.
    pub client: usize,
    /// Where it is: a revision by the order of their starts.
    pub revision: usize,
    /// Its events, as entered; never empty.
    pub events: Vec<VertexId>,
    /// The size of the diagram when its yield came; none while it is open. The yield came before
    /// the vertices from that place on.
    pub yielded: Option<usize>,
}

impl Transaction {
    /// "A transaction is open until its tablet's yield".
    pub fn is_open(&self) -> bool {
        self.yielded.is_none()
    }
}

/// What is kept of a client.
#[derive(Clone, Copy, Debug, Default, PartialEq, Eq)]
pub(crate) struct Client {
    pub(crate) last_event: Option<VertexId>,
    /// Its open transaction, by its place among all transactions.
    pub(crate) open: Option<usize>,
}

/// The day kept on paper.
#[derive(Clone, Debug, PartialEq, Eq)]
pub struct Day {
    pub(crate) diagram: Diagram,
    pub(crate) revisions: Vec<Revision>,
    pub(crate) numbering: Numbering,
    pub(crate) clients: [Client; CLIENTS],
    pub(crate) updates: Vec<Update>,
    pub(crate) transactions: Vec<Transaction>,
    /// The choice given to fresh.
    pub(crate) single_main: bool,
}

impl Day {
    /// "It begins with box 0 out, at the root." An ordinary day; the call fresh has the choice.
    pub fn fresh() -> Self {
        let (diagram, root) = Diagram::root();
        Day {
            diagram,
            revisions: vec![Revision::starting(root, None)],
            numbering: Numbering::fresh(),
            clients: [Client::default(); CLIENTS],
            updates: Vec::new(),
            transactions: Vec::new(),
            single_main: false,
        }
    }

    /// The diagram.
    pub fn diagram(&self) -> &Diagram {
        &self.diagram
    }

    /// All revisions started, in the order of their starts. Methods name them by their places here.
    pub fn revisions(&self) -> &[Revision] {
        &self.revisions
    }

    /// The revision that a number means: "the latest box that bore it"; none if none did.
    pub fn meant(&self, number: u8) -> Option<usize> {
        self.numbering.meant(number)
    }

    /// The number that a revision bears, or bore.
    pub fn number_of(&self, revision: usize) -> u8 {
        self.numbering.of(revision)
    }

    /// All transactions, open ones and those of queries alone too, in the order of their first
    /// events.
    pub fn transactions(&self) -> &[Transaction] {
        &self.transactions
    }

    /// All updates accepted, by number.
    pub fn updates(&self) -> &[Update] {
        &self.updates
    }

    /// Whether "boxes only ever come from the main box and go back to it".
    pub fn is_single_main(&self) -> bool {
        self.single_main
    }

    /// The visible updates of a revision, busy or not, in the listing's order.
    pub fn visible(&self, revision: usize) -> Vec<usize> {
        self.diagram.visible(self.revisions[revision].terminal)
    }

    /// The own updates of a revision, busy or not: "those it took itself plus those of boxes joined
    /// into it, directly or through others".
    pub fn own(&self, revision: usize) -> Vec<usize> {
        self.diagram.own(self.revisions[revision].terminal)
    }

    /// Whether vertex x sees vertex y: "A vertex sees each vertex from which a path leads to it."
    pub fn sees(&self, x: VertexId, y: VertexId) -> bool {
        self.diagram.leads(y, x)
    }

    /// The revision that a vertex belongs to.
    pub fn revision_of(&self, x: VertexId) -> usize {
        let start = self.diagram.start_of(x);
        match self.revisions.iter().position(|revision| revision.start == start) {
            Some(revision) => revision,
            None => unreachable!("every start vertex starts a revision"),
        }
    }
}

//! One arbitration order for a day, by the layout of its revisions.
//!
//! The revisions that are out stand in a row; each has the list of transactions that it took or
//! took over. A forked revision is put to the right of its forker. A join puts the joinee's list
//! behind the joiner's and takes the joinee out of the row. The lists from left to right are the order.
//! A marked revision takes none, so that it does not matter that a dropped one stays in the row. Whether
//! it is an arbitration order is for the checks of `line_up` to say.

use literal::{Day, VertexId, VertexKind};

/// The transactions of a day, by their places in [`Day::transactions`], in arbitration order.
pub fn arbitration_order(day: &Day) -> Vec<usize> {
    let diagram = day.diagram();
    let mut row: Vec<usize> = Vec::new();
    let mut own: Vec<Vec<usize>> = vec![Vec::new(); day.revisions().len()];
    for x in diagram.vertices() {
        let revision = day.revision_of(x);
        match diagram.kind(x) {
            VertexKind::Start => {
                let forker = diagram.f_edge(x).map(|fork| day.revision_of(fork));
                let place = row.iter().position(|&other| Some(other) == forker);
                row.insert(place.map_or(0, |place| place + 1), revision);
            }
            VertexKind::Join => {
                if let Some(joinee) = diagram.j_edge(x).map(|last| day.revision_of(last)) {
                    let gained = std::mem::take(&mut own[joinee]);
                    own[revision].extend(gained);
                    row.retain(|&other| other != joinee);
                }
            }
            VertexKind::Update(_) | VertexKind::Query => own[revision].extend(begun(day, x)),
            VertexKind::Fork => {}
        }
    }
    row.into_iter().flat_map(|revision| own[revision].clone()).collect()
}

/// The transaction that begins with this event, if one does.
fn begun(day: &Day, x: VertexId) -> Option<usize> {
    day.transactions().iter().position(|transaction| transaction.events.first() == Some(&x))
}

//! Effects and root paths: 002, Definitions 7, 8 and 9, with updates by number.

use std::iter;

use crate::diagram::{Diagram, VertexId, VertexKind};

impl Diagram {
    /// S(x): the start vertex of the revision that x belongs to.
    pub fn start_of(&self, x: VertexId) -> VertexId {
        iter::successors(Some(x), |&y| self.s_edge(y)).last().unwrap_or(x)
    }

    /// The effects of x's revision up to x: what it took itself, and what was joined into it. What
    /// it inherited at its start is not among them.
    pub fn own(&self, x: VertexId) -> Vec<usize> {
        self.effects(x, false)
    }

    /// The effects along the root path of x: what Definition 9 applies to the fresh values. The
    /// joiner's updates stand before the join vertex, so they come first.
    pub fn visible(&self, x: VertexId) -> Vec<usize> {
        self.effects(x, true)
    }

    /// Definition 8, as the numbers of the updates to apply, first one first: the effects of the
    /// vertices of x's revision up to x, or of x's root path, which is Definition 7's "unique path
    /// from the root to v that does not contain j-edges". The effect of an update is the update; that
    /// of a join vertex is those of the joinee's revision.
    ///
    /// Gathered from x backwards. What is left to do is on a stack of its own, since joins within
    /// joins may be as deep as the day is long; the second part tells whether f-edges are followed.
    fn effects(&self, x: VertexId, root_path: bool) -> Vec<usize> {
        let mut numbers = Vec::new();
        let mut to_visit = vec![(x, root_path)];
        while let Some((y, root_path)) = to_visit.pop() {
            if let VertexKind::Update(number) = self.kind(y) {
                numbers.push(number);
            }
            let forked_by = if root_path { self.f_edge(y) } else { None };
            to_visit.extend(self.s_edge(y).or(forked_by).map(|z| (z, root_path)));
            // On top, since the effect of y comes behind those of the vertices before it.
            to_visit.extend(self.j_edge(y).map(|z| (z, false)));
        }
        numbers.reverse();
        numbers
    }
}

#[cfg(test)]
mod tests {
    use super::*;

    /// The path that ends at x, with the vertex before each as told.
    fn path_to(x: VertexId, before: impl Fn(VertexId) -> Option<VertexId>) -> Vec<VertexId> {
        let mut path: Vec<VertexId> = iter::successors(Some(x), |&y| before(y)).collect();
        path.reverse();
        path
    }

    /// Definition 8 as it is printed, by recursion.
    fn effect(diagram: &Diagram, x: VertexId) -> Vec<usize> {
        match diagram.kind(x) {
            VertexKind::Start | VertexKind::Fork | VertexKind::Query => Vec::new(),
            VertexKind::Update(number) => vec![number],
            VertexKind::Join => {
                let joinee = path_to(diagram.j_edge(x).unwrap(), |y| diagram.s_edge(y));
                joinee.into_iter().flat_map(|y| effect(diagram, y)).collect()
            }
        }
    }

    /// Vertices of all kinds, any revision forked, and any two joined that bear the rule out or not.
    fn any_diagram(mut bits: u64) -> Diagram {
        let (mut diagram, root) = Diagram::root();
        let mut terminals = vec![root];
        for number in 0..40 {
            bits = bits
                .wrapping_mul(6_364_136_223_846_793_005)
                .wrapping_add(1_442_695_040_888_963_407);
            let at = (bits >> 33) as usize % terminals.len();
            let other = (bits >> 48) as usize % terminals.len();
            match bits >> 62 {
                0 | 1 => terminals[at] = diagram.event(terminals[at], VertexKind::Update(number)),
                2 => {
                    let (fork, start) = diagram.fork(terminals[at]);
                    terminals[at] = fork;
                    terminals.push(start);
                }
                _ if at != other => {
                    terminals[at] = diagram.join(terminals[at], terminals[other]);
                    terminals.remove(other);
                }
                _ => terminals[at] = diagram.event(terminals[at], VertexKind::Query),
            }
        }
        diagram
    }

    #[test]
    fn effects_are_those_of_the_recursion() {
        for seed in 0..300 {
            let diagram = any_diagram(seed);
            for x in diagram.vertices() {
                let by_recursion = |path: Vec<VertexId>| -> Vec<usize> {
                    path.into_iter().flat_map(|y| effect(&diagram, y)).collect()
                };
                let revision = path_to(x, |y| diagram.s_edge(y));
                assert_eq!(diagram.start_of(x), revision[0]);
                assert_eq!(diagram.own(x), by_recursion(revision), "seed {seed}, {x:?}");
                let root_path = path_to(x, |y| diagram.s_edge(y).or(diagram.f_edge(y)));
                assert_eq!(diagram.visible(x), by_recursion(root_path), "seed {seed}, {x:?}");
            }
        }
    }

    /// Each revision is joined into the next, and the first has an update.
    #[test]
    fn joins_within_joins_are_as_deep_as_the_day_is_long() {
        let (mut diagram, mut main) = Diagram::root();
        let mut last = diagram.event(main, VertexKind::Update(0));
        for _ in 0..20_000 {
            let (fork, start) = diagram.fork(main);
            main = fork;
            last = diagram.join(start, last);
        }
        assert_eq!(diagram.own(last), [0]);
        assert!(diagram.own(main).is_empty());
    }

    /// A path is found exactly where one is made of edges, by a plain closure over them.
    #[test]
    fn paths_are_those_of_the_edges() {
        for seed in 0..300 {
            let diagram = any_diagram(seed);
            let mut sees = vec![vec![false; diagram.size()]; diagram.size()];
            for x in diagram.vertices() {
                sees[x.place()][x.place()] = true;
                for y in
                    [diagram.s_edge(x), diagram.f_edge(x), diagram.j_edge(x)].into_iter().flatten()
                {
                    let before = sees[y.place()].clone();
                    before.iter().zip(&mut sees[x.place()]).for_each(|(&b, s)| *s |= b);
                }
                for y in diagram.vertices() {
                    assert_eq!(diagram.leads(y, x), sees[x.place()][y.place()], "{y:?} to {x:?}");
                }
            }
        }
    }
}

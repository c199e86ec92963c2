//! The revision diagram of 002, Definition 6: vertices, edges, and the search for a path.
//!
//! It builds whatever it is told to. Who may do what is decided elsewhere.

/// A vertex, by its place in the order of creation. Edges run from earlier to later vertices.
#[derive(Clone, Copy, Debug, PartialEq, Eq, PartialOrd, Ord)]
pub struct VertexId(usize);

impl VertexId {
    /// How many vertices are older.
    pub fn place(self) -> usize {
        self.0
    }
}

/// The five kinds of vertex.
#[derive(Clone, Copy, Debug, PartialEq, Eq)]
pub enum VertexKind {
    /// The beginning of a revision. The first one is the root.
    Start,
    /// A revision was forked here.
    Fork,
    /// A revision was joined here.
    Join,
    /// An update, by its number.
    Update(usize),
    /// A query.
    Query,
}

/// A vertex with the edges that lead to it.
#[derive(Clone, Debug, PartialEq, Eq)]
struct Vertex {
    kind: VertexKind,
    successor_of: Option<VertexId>,
    forked_by: Option<VertexId>,
    joins: Option<VertexId>,
}

/// The diagram.
#[derive(Clone, Debug, PartialEq, Eq)]
pub struct Diagram {
    vertices: Vec<Vertex>,
}

impl Diagram {
    /// The diagram of the root alone, and the root.
    pub(crate) fn root() -> (Self, VertexId) {
        let mut diagram = Diagram { vertices: Vec::new() };
        let root = diagram.add(VertexKind::Start, None, None, None);
        (diagram, root)
    }

    fn add(
        &mut self,
        kind: VertexKind,
        successor_of: Option<VertexId>,
        forked_by: Option<VertexId>,
        joins: Option<VertexId>,
    ) -> VertexId {
        self.vertices.push(Vertex { kind, successor_of, forked_by, joins });
        VertexId(self.vertices.len() - 1)
    }

    /// Query or update: a new vertex x and t --s--> x.
    pub(crate) fn event(&mut self, t: VertexId, kind: VertexKind) -> VertexId {
        self.add(kind, Some(t), None, None)
    }

    /// Fork: a fork vertex x, a start vertex y, t --s--> x and x --f--> y.
    pub(crate) fn fork(&mut self, t: VertexId) -> (VertexId, VertexId) {
        let x = self.add(VertexKind::Fork, Some(t), None, None);
        let y = self.add(VertexKind::Start, None, Some(x), None);
        (x, y)
    }

    /// Join: a join vertex x, joiner --s--> x and joinee --j--> x.
    pub(crate) fn join(&mut self, joiner: VertexId, joinee: VertexId) -> VertexId {
        self.add(VertexKind::Join, Some(joiner), None, Some(joinee))
    }

    /// All vertices in order of creation.
    pub fn vertices(&self) -> impl Iterator<Item = VertexId> {
        (0..self.vertices.len()).map(VertexId)
    }

    /// How many vertices there are.
    pub fn size(&self) -> usize {
        self.vertices.len()
    }

    /// The kind of a vertex.
    pub fn kind(&self, x: VertexId) -> VertexKind {
        self.vertices[x.0].kind
    }

    /// The y with y --s--> x.
    pub fn s_edge(&self, x: VertexId) -> Option<VertexId> {
        self.vertices[x.0].successor_of
    }

    /// The y with y --f--> x.
    pub fn f_edge(&self, x: VertexId) -> Option<VertexId> {
        self.vertices[x.0].forked_by
    }

    /// The y with y --j--> x.
    pub fn j_edge(&self, x: VertexId) -> Option<VertexId> {
        self.vertices[x.0].joins
    }

    /// Whether a path leads from x to y, along any edges. From a vertex to itself there is one. The
    /// search goes backwards from y, and leaves out what is older than x: no edge leads there from x.
    pub fn leads(&self, x: VertexId, y: VertexId) -> bool {
        let mut met = vec![false; (y.0 + 1).saturating_sub(x.0)];
        let mut to_visit = vec![y];
        while let Some(z) = to_visit.pop() {
            if z == x {
                return true;
            }
            if z > x && !met[z.0 - x.0] {
                met[z.0 - x.0] = true;
                to_visit.extend(self.s_edge(z));
                to_visit.extend(self.f_edge(z));
                to_visit.extend(self.j_edge(z));
            }
        }
        false
    }
}

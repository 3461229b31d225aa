//! The forms of records. A record's version byte says which form it has, and the form says how
//! wide the parts of the record are and how many of them it may have. Whoever reads, checks or
//! lays down a record asks its form.

/// What a version decides.
#[derive(Clone, Copy, Debug, PartialEq, Eq)]
pub struct Form {
    pub version: u8,
    /// Bytes of a route: the present byte first, the fields last.
    pub route: usize,
    /// Bytes at a node's end, behind its tags.
    pub tail: usize,
    /// The most nodes of a network, and the most entries of a sheet or list.
    pub most: usize,
}

/// Document 01's records.
pub const VERSION_1: Form = Form {
    version: 1,
    route: 9,
    tail: 0,
    most: 512,
};

/// All forms.
pub const FORMS: [Form; 1] = [VERSION_1];

/// The most nodes of any network: what a table of rows has room for.
pub const MOST: usize = most_of_any();

// What all forms share.

pub const MOST_EDGES: usize = 4_096;
pub const MOST_POLICIES: usize = 64;
pub const LAST_FRAGMENT: u8 = 63;

/// Where the version byte and the first count stand.
pub const VERSION_AT: usize = 4;
pub const COUNT_AT: usize = 5;

/// Bytes before the first policy, and before the first entry.
pub const NETWORK_HEAD: usize = 10;
pub const ENTRIES_HEAD: usize = 7;

pub const POLICY: usize = 13;
pub const EDGE: usize = 5;

/// Bytes of an entry before its route: the id, and in a sheet the fragment number.
pub const LIST_LEAD: usize = 2;
pub const SHEET_LEAD: usize = 3;

/// Where the fragment number stands in an entry of a sheet.
pub const FRAGMENT: usize = 2;

/// Where a node's kind stands, and its route.
pub const KIND: usize = 2;
pub const ROUTE: usize = 3;

/// Bytes of a node's demand with its ceiling and its tags.
pub const ASKS: usize = 5;

impl Form {
    /// The form of a record, by its version byte; nothing where no form has that version, or the
    /// record ends before it.
    pub fn of(record: &[u8]) -> Option<Form> {
        let version = record.get(VERSION_AT)?;
        FORMS.into_iter().find(|form| form.version == *version)
    }

    /// Where the fields of a node stand that follow its route.
    pub const fn flag(self) -> usize {
        ROUTE + self.route
    }

    pub const fn promised(self) -> usize {
        self.flag() + 1
    }

    pub const fn demand(self) -> usize {
        self.promised() + self.route
    }

    /// Bytes of a node.
    pub const fn node(self) -> usize {
        self.demand() + ASKS + self.tail
    }

    /// Bytes of an entry with this lead.
    pub const fn entry(self, lead: usize) -> usize {
        lead + self.route
    }

    /// Bytes of a network with these counts.
    pub const fn network(self, policies: usize, nodes: usize, edges: usize) -> usize {
        NETWORK_HEAD + POLICY * policies + self.node() * nodes + EDGE * edges
    }

    /// Bytes of a sheet or list with so many entries.
    pub const fn entries(self, lead: usize, count: usize) -> usize {
        ENTRIES_HEAD + self.entry(lead) * count
    }

    /// The head of a network: its length, its version and its counts.
    pub fn network_head(self, policies: usize, nodes: usize, edges: usize) -> [u8; NETWORK_HEAD] {
        let [l3, l2, l1, l0] = length_field(self.network(policies, nodes, edges));
        let [n1, n0] = (nodes as u16).to_be_bytes();
        let [e1, e0] = (edges as u16).to_be_bytes();
        let (version, policies) = (self.version, policies as u8);
        [l3, l2, l1, l0, version, n1, n0, e1, e0, policies]
    }

    /// The head of a sheet or list.
    pub fn entries_head(self, lead: usize, count: usize) -> [u8; ENTRIES_HEAD] {
        let [l3, l2, l1, l0] = length_field(self.entries(lead, count));
        let [c1, c0] = (count as u16).to_be_bytes();
        [l3, l2, l1, l0, self.version, c1, c0]
    }

    pub const fn largest_network(self) -> usize {
        self.network(MOST_POLICIES, self.most, MOST_EDGES)
    }

    pub const fn largest_entries(self, lead: usize) -> usize {
        self.entries(lead, self.most)
    }
}

impl Default for Form {
    /// The form of the bench examples.
    fn default() -> Form {
        VERSION_1
    }
}

/// The length field of a record of so many bytes, which counts those after it.
pub fn length_field(total: usize) -> [u8; 4] {
    (total as u32 - 4).to_be_bytes()
}

const fn most_of_any() -> usize {
    let (mut most, mut row) = (0, 0);
    while row < FORMS.len() {
        if FORMS[row].most > most {
            most = FORMS[row].most;
        }
        row += 1;
    }
    most
}

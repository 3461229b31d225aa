//! A network and a sheet or list that belong together.

use super::view::number_at;
use super::{read_entries, read_network, Entries, Network, Table};
use crate::form::{LIST_LEAD, MOST, SHEET_LEAD};
use crate::refusal::{refuse, Refusal};
use std::num::NonZeroU16;

/// A sound network, and a well-formed sheet or list in which every own node has an entry.
pub struct Pair<'a, const LEAD: usize> {
    pub network: Network<'a>,
    entries: Entries<'a, LEAD>,
    entered: Entered,
}

/// By row of the network: the offset of the route in an own node's entry, which is never 0. An
/// input has none, whatever the entries say of its id.
type Entered = [Option<NonZeroU16>; MOST];

/// A network and the list that is judged against it.
pub type Proposal<'a> = Pair<'a, LIST_LEAD>;

/// A network and the sheet that it is cut by.
pub type Cut<'a> = Pair<'a, SHEET_LEAD>;

impl<'a, const LEAD: usize> Pair<'a, LEAD> {
    /// Reads both records and fills the table, or gives the first of the refusals 1 to 17. Those
    /// of the network come before those of the second record.
    pub fn read(
        network: &'a [u8],
        second: &'a [u8],
        table: &mut Table,
    ) -> Result<Pair<'a, LEAD>, Refusal> {
        let network = read_network(network, table)?;
        let entries = read_entries(second)?;
        let entered = enter(&network, &entries, table)?;
        Ok(Pair {
            network,
            entries,
            entered,
        })
    }

    /// The route in an own node's entry.
    #[inline]
    pub fn route_bytes(&self, row: usize) -> Option<&'a [u8]> {
        let offset = usize::from(self.entered[row]?.get());
        Some(&self.entries.part[offset..][..self.entries.form.route])
    }
}

impl Cut<'_> {
    /// The fragment number in an own node's entry, right before the route.
    #[inline]
    pub fn fragment(&self, row: usize) -> Option<u8> {
        let offset = usize::from(self.entered[row]?.get());
        Some(self.entries.part[offset - 1])
    }
}

/// Finds the entries of the own nodes, or refuses with 17 at the first own node that has none.
fn enter<const LEAD: usize>(
    network: &Network,
    entries: &Entries<LEAD>,
    table: &Table,
) -> Result<Entered, Refusal> {
    let mut entered = [None; MOST];
    let mut offset = LEAD as u16;
    for entry in entries.rows() {
        let row = table.row(number_at(entry, 0));
        if let Some(row) = row.filter(|row| table.is_own(*row)) {
            entered[row] = NonZeroU16::new(offset);
        }
        offset += entry.len() as u16;
    }
    let mut rows = 0..network.nodes().len();
    match rows.find(|row| table.is_own(*row) && entered[*row].is_none()) {
        Some(row) => refuse(17, network.node(row).id().into()),
        None => Ok(entered),
    }
}

//! Inputs by their parts.

use crate::call::{Call, CENSUS, CUT, JOIN, JUDGE, TRAIL};
use crate::form::{Form, LIST_LEAD, SHEET_LEAD};
use crate::plan::{list_record, sheet_record, Listed, Noted, Plan};

/// A network, what stands behind it, and a second record. The form is the one that the records
/// were laid down in, whatever their version bytes have become.
#[derive(Clone)]
pub struct Input {
    pub call: &'static Call,
    pub form: Form,
    pub network: Vec<u8>,
    /// What stands between the two records: for the cutter the fragment asked, for the trail the id
    /// that names a box.
    pub between: Vec<u8>,
    pub second: Vec<u8>,
    /// Bytes of the second record's entries before their route; 0 where it is a network.
    pub lead: usize,
}

impl Input {
    pub fn judge(plan: &Plan, list: &[Listed]) -> Input {
        Input {
            call: JUDGE,
            form: plan.form,
            network: plan.record(),
            between: vec![],
            second: list_record(plan.form, list),
            lead: LIST_LEAD,
        }
    }

    /// The census reads what the judge reads.
    pub fn census(plan: &Plan, list: &[Listed]) -> Input {
        Input {
            call: CENSUS,
            ..Input::judge(plan, list)
        }
    }

    pub fn trail(plan: &Plan, id: u16, list: &[Listed]) -> Input {
        Input::judge(plan, list).naming(id)
    }

    /// The judge's input, asking for the trail of a box.
    pub fn naming(self, id: u16) -> Input {
        Input {
            call: TRAIL,
            between: id.to_be_bytes().to_vec(),
            ..self
        }
    }

    pub fn cut(plan: &Plan, asked: u8, sheet: &[Noted]) -> Input {
        Input {
            call: CUT,
            form: plan.form,
            network: plan.record(),
            between: vec![asked],
            second: sheet_record(plan.form, sheet),
            lead: SHEET_LEAD,
        }
    }

    pub fn join(first: &Plan, second: &Plan) -> Input {
        Input {
            call: JOIN,
            form: first.form,
            network: first.record(),
            between: vec![],
            second: second.record(),
            lead: 0,
        }
    }

    pub fn bytes(&self) -> Vec<u8> {
        [&self.network[..], &self.between, &self.second].concat()
    }

    pub fn answer(&self) -> Vec<u8> {
        self.call.answer(&self.bytes())
    }
}

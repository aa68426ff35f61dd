//! The rows of a prepared transaction, with what the six files keep private of them: the parent and the leaf's previous id.
//! Those two are read off the text that their derived `Debug` gives.

use super::Transaction;
use crate::transaction::RefEdit;
use gix_hash::ObjectId;
use std::borrow::Borrow;

pub struct Row {
    pub edit: RefEdit,
    pub parent: Option<usize>,
    pub leaf_previous: Option<ObjectId>,
}

impl Transaction<'_, '_> {
    pub fn rows(&self) -> Vec<Row> {
        let edits = self.updates.iter().flatten();
        edits.map(|edit| row(Borrow::<RefEdit>::borrow(edit).clone(), &format!("{edit:?}"))).collect()
    }
}

fn row(edit: RefEdit, debug: &str) -> Row {
    Row {
        edit,
        parent: field(debug, ", parent_index: ").map(|text| text.parse().expect("a place")),
        leaf_previous: field(debug, ", leaf_referent_previous_oid: ").map(|text| ObjectId::from_hex(text).expect("an id")),
    }
}

/// What stands in `Some(..)` behind the last place of `label`. Names hold no spaces, so the label is none of theirs.
fn field<'a>(debug: &'a str, label: &str) -> Option<&'a str> {
    let (_, value) = debug.rsplit_once(label).expect("the field is printed");
    value.strip_prefix("Some(")?.split_once(')').map(|(value, _)| value)
}

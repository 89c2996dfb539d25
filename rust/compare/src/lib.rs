//! The independent implementation's tables, lent to the calls of the library or of another implementation.

use cells::Lent;
use reference::Tables;

pub fn lent(t: &mut Tables) -> Lent<'_> {
    Lent {
        m: t.m,
        first: &t.first,
        last: &t.last,
        offset: &t.offset,
        marks: &mut t.marks,
        rights: &mut t.rights,
        grants: &mut t.grants,
        memory: &mut t.memory,
    }
}

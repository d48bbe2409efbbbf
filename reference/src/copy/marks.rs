//! The markers of a list.

use std::collections::BTreeSet;

use super::turns;
use crate::list::{Prefix, RouteList};

/// The heads of all routes at the lengths where the way to their own turns longer, each once, but for those that are
/// routes.
pub fn markers(list: &RouteList) -> BTreeSet<Prefix> {
    let mut heads = BTreeSet::new();
    for route in list.routes() {
        heads.extend(turns(route.prefix.length).into_iter().map(|m| Prefix::around(route.prefix.address, m)));
    }
    heads.retain(|&head| list.hop(head).is_none());
    heads
}

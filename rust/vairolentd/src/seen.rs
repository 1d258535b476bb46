//! What a set shows to the daemon itself, whoever may read it.

use vairolent::{Host, Set};

use crate::caller::Role;
use crate::leases::SPARE;

/// A live set, as user 0 reads it on a copy: nothing happens to the host.
pub fn set(host: &Host, identifier: i32) -> Set {
    let mut copy = host.clone();
    copy.act_as(SPARE, Role::ROOT.user, Role::ROOT.group).expect("the spare number is awake");
    copy.query_set(SPARE, identifier).expect("a live set")
}

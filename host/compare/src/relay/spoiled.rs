//! Wrong bytes in what was lent, which every comparison has to notice.

use super::boundary::Lent;
use crate::guarded::Guarded;

/// The first and the last byte of each buffer, none of which may be empty.
pub const SPOILED_BYTES: [fn(&mut Lent); 14] = [
    |lent| first(&mut lent.connections),
    |lent| last(&mut lent.connections),
    |lent| first(&mut lent.leases),
    |lent| last(&mut lent.leases),
    |lent| first(&mut lent.allowances),
    |lent| last(&mut lent.allowances),
    |lent| first(&mut lent.message),
    |lent| last(&mut lent.message),
    |lent| first(&mut lent.random),
    |lent| last(&mut lent.random),
    |lent| first(&mut lent.reply),
    |lent| last(&mut lent.reply),
    |lent| first(&mut lent.relay),
    |lent| last(&mut lent.relay),
];

fn first(buffer: &mut Guarded) {
    buffer.lend_mut()[0] ^= 1;
}

fn last(buffer: &mut Guarded) {
    *buffer.lend_mut().last_mut().expect("a buffer with room") ^= 1;
}

//! What could be overlooked where maps and connection tables are read.

use compare::relay::noticed::Overlooked;
use compare::relay::noticed::Shows::{InHistory, InRuns, OnTables};
use engine::relay::{CONNECTIONS as TABLE, NOBODY};
use model::{CONNECTIONS, PARTNERS};

use crate::mapping::{bits_of, found, rebuilt, whole, Find, Rebuild, EACH, NO_PARTNER};

/// The last partner, and of a partner's bits the highest.
const LAST: u64 = PARTNERS as u64 - 1;
const HIGHEST: u64 = 1 << (EACH - 1);

/// What is found of a partner, changed so.
fn changed(map: u64, partner: u64, change: impl FnOnce(&mut u32, &mut u32)) -> [u32; 3] {
    let [number, mut connections, mut lowest] = found(map, partner);
    if number == 0 {
        change(&mut connections, &mut lowest);
    }
    [number, connections, lowest]
}

fn first_of(partner: u64) -> u32 {
    EACH as u32 * partner as u32
}

/// What a number that no partner has is answered with.
fn no_partner(map: u64, partner: u64, instead: [u32; 3]) -> [u32; 3] {
    if partner > LAST {
        instead
    } else {
        found(map, partner)
    }
}

pub const WRONG_COUNTS: [Overlooked<Find>; 9] = [
    ("the highest", InHistory, |map, partner| {
        changed(map, partner, |connections, lowest| {
            let others = bits_of(map, partner) & (HIGHEST - 1);
            [_, *connections, *lowest] = found(others << first_of(partner), partner);
        })
    }),
    ("the highest where it counts", InHistory, |map, partner| {
        changed(map, partner, |connections, _| *connections = (bits_of(map, partner) & (HIGHEST - 1)).count_ones())
    }),
    ("the lowest where it counts", InHistory, |map, partner| {
        changed(map, partner, |connections, _| *connections = (bits_of(map, partner) & !1).count_ones())
    }),
    ("the neighbours", InHistory, |map, partner| {
        changed(map, partner, |connections, _| *connections = map.count_ones())
    }),
    ("the next one", InHistory, |map, partner| {
        changed(map, partner, |connections, _| {
            *connections = (map >> first_of(partner) & ((2 << EACH) - 1)).count_ones();
        })
    }),
    ("that closed ones aren't counted", InHistory, |map, partner| {
        changed(map, partner, |connections, _| *connections = EACH as u32 - *connections)
    }),
    ("that there can be gaps", InHistory, |map, partner| {
        changed(map, partner, |connections, _| *connections = bits_of(map, partner).trailing_ones())
    }),
    ("that it is a number of connections", InHistory, |map, partner| {
        changed(map, partner, |connections, _| *connections = bits_of(map, partner) as u32)
    }),
    ("that all can be taken", InHistory, |map, partner| {
        changed(map, partner, |connections, _| *connections %= EACH as u32)
    }),
];

pub const WRONG_LOWEST: [Overlooked<Find>; 11] = [
    ("whose number it is", InHistory, |map, partner| {
        changed(map, partner, |_, lowest| *lowest = if *lowest == NOBODY { NOBODY } else { *lowest % EACH as u32 })
    }),
    ("that nobody is 255", InHistory, |map, partner| {
        changed(map, partner, |_, lowest| *lowest = if *lowest == NOBODY { EACH as u32 } else { *lowest })
    }),
    ("that the next partner's is no number", InHistory, |map, partner| {
        changed(map, partner, |_, lowest| *lowest = first_of(partner) + bits_of(map, partner).trailing_ones())
    }),
    ("that the highest can be the lowest left", InRuns, |map, partner| {
        changed(map, partner, |_, lowest| {
            *lowest = if *lowest % EACH as u32 == EACH as u32 - 1 { NOBODY } else { *lowest };
        })
    }),
    ("that the first can be left", InHistory, |map, partner| {
        changed(map, partner, |_, lowest| *lowest = if *lowest == first_of(partner) { NOBODY } else { *lowest })
    }),
    ("that there can be gaps", InHistory, |map, partner| {
        changed(map, partner, |connections, lowest| {
            *lowest = if *connections == EACH as u32 { NOBODY } else { first_of(partner) + *connections };
        })
    }),
    ("that it is closed", InHistory, |map, partner| {
        changed(map, partner, |_, lowest| *lowest = first_of(partner) + bits_of(map, partner).trailing_zeros())
    }),
    ("that it is the lowest", InHistory, |map, partner| {
        changed(map, partner, |_, lowest| {
            let mut places = (0..EACH as u32).rev();
            let highest = places.find(|place| bits_of(map, partner) >> place & 1 == 0);
            *lowest = highest.map_or(NOBODY, |place| first_of(partner) + place);
        })
    }),
    ("that it is the partner's", InHistory, |map, partner| {
        changed(map, partner, |_, lowest| *lowest = if map == u64::MAX { NOBODY } else { map.trailing_ones() })
    }),
    ("that the next partner's aren't left", InHistory, |map, partner| {
        changed(map, partner, |_, lowest| {
            *lowest = first_of(partner) + (map >> first_of(partner)).trailing_ones();
        })
    }),
    ("the last partner's last", InHistory, |map, partner| found(map | 1 << (CONNECTIONS - 1), partner)),
];

pub const WRONG_PARTNERS: [Overlooked<Find>; 14] = [
    ("that there are so many partners", InHistory, |map, partner| found(map, partner % PARTNERS as u64)),
    ("the partner's high 32 bits", InHistory, |map, partner| found(map, partner % (1 << 32))),
    ("all of the partner but a byte", InHistory, |map, partner| found(map, partner % (1 << 8))),
    ("the partner's highest bit", InHistory, |map, partner| found(map, partner % (1 << 63))),
    ("that partners are counted from 0", InHistory, |map, partner| found(map, partner.wrapping_sub(1))),
    ("that the last is one", InHistory, |map, partner| if partner == LAST { NO_PARTNER } else { found(map, partner) }),
    ("that the next one is none", InHistory, |map, partner| {
        if partner == PARTNERS as u64 {
            [0, 0, NOBODY]
        } else {
            found(map, partner)
        }
    }),
    ("that 3 is answered", InHistory, |map, partner| no_partner(map, partner, [0, 0, NOBODY])),
    ("that 1 isn't answered", InHistory, |map, partner| no_partner(map, partner, [1, 0, NOBODY])),
    ("that nobody is named with 3", InHistory, |map, partner| no_partner(map, partner, [3, 0, 0])),
    ("that none is counted with 3", InHistory, |map, partner| no_partner(map, partner, [3, map.count_ones(), NOBODY])),
    ("that the lowest byte is the first partner's", InHistory, |map, partner| found(map.swap_bytes(), partner)),
    ("that the lowest bit is the first connection's", InHistory, |map, partner| found(map.reverse_bits(), partner)),
    ("the map's high 32 bits", InHistory, |map, partner| found(map % (1 << 32), partner)),
];

/// The map of a whole table with other states as not closed.
fn with_states(table: &[u8], is_taken: fn(u8) -> bool) -> (u32, u64) {
    whole(table, |table| rebuilt(table, is_taken))
}

fn right(table: &[u8]) -> u64 {
    rebuilt(table, is_taken)
}

fn is_taken(state: u8) -> bool {
    state == 1 || state == 2
}

pub const WRONG_STATES: [Overlooked<Rebuild>; 9] = [
    ("that 3 is closed", OnTables, |table| with_states(table, |state| is_taken(state) || state == 3)),
    ("that 255 is closed", OnTables, |table| with_states(table, |state| is_taken(state) || state == 255)),
    ("that states above 2 are closed", OnTables, |table| with_states(table, |state| state != 0)),
    ("that who awaits isn't closed", InHistory, |table| with_states(table, |state| state == 2)),
    ("that who is open isn't closed", InHistory, |table| with_states(table, |state| state == 1)),
    ("that a state has more than two bits", OnTables, |table| with_states(table, |state| is_taken(state % 4))),
    ("that a state has no sign", OnTables, |table| with_states(table, |state| is_taken(state) || state > 127)),
    ("that it is no flag of bits", OnTables, |table| with_states(table, |state| state & 3 != 0 && state < 128)),
    ("which are closed", InHistory, |table| with_states(table, |state| !is_taken(state))),
];

/// The map of a table of any size, read as far as there are connections.
fn of_any_size(table: &[u8], refuses: bool) -> (u32, u64) {
    if refuses {
        (1, 0)
    } else {
        (0, right(table))
    }
}

pub const WRONG_TABLES: [Overlooked<Rebuild>; 14] = [
    ("that the first connection's bit is the lowest", InHistory, |table| {
        whole(table, |table| right(table).reverse_bits())
    }),
    ("that the first partner's byte is the lowest", InHistory, |table| whole(table, |table| right(table).swap_bytes())),
    ("the first connection", InHistory, |table| whole(table, |table| right(table) & !1)),
    ("the last connection", InHistory, |table| whole(table, |table| right(table) & (u64::MAX >> 1))),
    ("half of the connections", InHistory, |table| whole(table, |table| right(table) % (1 << 32))),
    ("that bit 0 is the first one's", InHistory, |table| whole(table, |table| right(table).rotate_left(1))),
    ("which byte is the state", InHistory, |table| whole(table, |table| right(&table[1..]))),
    ("how long a record is", InHistory, |table| {
        whole(table, |table| {
            (0..CONNECTIONS).fold(0, |map, place| map | u64::from(is_taken(table[40 * place])) << place)
        })
    }),
    ("that a map is rebuilt", InHistory, |table| whole(table, |_| 0)),
    ("that a table can be too short", OnTables, |table| of_any_size(table, table.len() > TABLE)),
    ("that a table can be too long", OnTables, |table| of_any_size(table, table.len() < TABLE)),
    ("that a record can be cut", OnTables, |table| {
        of_any_size(table, table.len().div_ceil(TABLE / CONNECTIONS) != CONNECTIONS)
    }),
    ("that the map is 0 with 1", OnTables, |table| (u32::from(table.len() != TABLE), right(table))),
    ("that 1 is answered", OnTables, |table| (0, whole(table, right).1)),
];

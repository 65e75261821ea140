//! Channel routing, as in section 5 of document 001: each net gets one of two layers and one of three tracks in it. Two
//! nets that meet do not share a track, and of two with an order on one layer the first is above the second.

use super::{denial, fact, X, Y, Z};
use crate::reference::{Atom, Clause, Ticket};

const NET: u8 = 0;
/// of a net, in the first layer and in the second
const LAYERS: [u8; 2] = [1, 2];
/// of a net and a track; those of the first layer are numbered first
const ON: u8 = 3;
const MEET: u8 = 4;
const ABOVE: u8 = 5;

const TRACKS: u8 = 3;

/// Two nets, the first one first.
pub type Pair = (u8, u8);

/// Each net meets the `reach` nets after it, and is above the last of them.
pub fn routing(nets: u8, reach: u8) -> Ticket {
    let meeting: Vec<Pair> = (0..nets).flat_map(|net| (net + 1..nets.min(net + 1 + reach)).map(move |other| (net, other))).collect();
    let ordered: Vec<Pair> = (reach..nets).map(|net| (net - reach, net)).collect();
    with(nets, &meeting, &ordered)
}

/// With these pairs meeting, and of these the first above the second.
pub fn with(nets: u8, meeting: &[Pair], ordered: &[Pair]) -> Ticket {
    let mut clauses = vec![Clause::new(&[Atom::new(NET, &[X])], &LAYERS.map(|layer| Atom::new(layer, &[X])))];
    clauses.extend([0, 1].map(in_layer));
    clauses.push(denial(&[on(X, Y), on(Z, Y), Atom::new(MEET, &[X, Z])]));
    clauses.extend([0, 1].into_iter().flat_map(out_of_order));
    clauses.extend((0..nets).map(|net| fact(Atom::new(NET, &[net]))));
    clauses.extend(meeting.iter().map(|(net, other)| fact(Atom::new(MEET, &[*net, *other]))));
    clauses.extend(ordered.iter().map(|(net, other)| fact(Atom::new(ABOVE, &[*net, *other]))));
    Ticket { constants: nets.max(2 * TRACKS), limit: [0xFF; 4], arities: vec![1, 1, 1, 2, 2, 2], clauses }
}

fn on(net: u8, track: u8) -> Atom {
    Atom::new(ON, &[net, track])
}

fn tracks(layer: u8) -> std::ops::Range<u8> {
    layer * TRACKS..(layer + 1) * TRACKS
}

/// A net in a layer is on one of its tracks.
fn in_layer(layer: u8) -> Clause {
    Clause { conditions: vec![Atom::new(LAYERS[layer as usize], &[X])], alternatives: tracks(layer).map(|track| on(X, track)).collect() }
}

/// Denials of each two tracks of a layer that are the same or in the wrong order.
fn out_of_order(layer: u8) -> Vec<Clause> {
    let denied = |first: u8, second: u8| denial(&[on(X, first), on(Y, second), Atom::new(ABOVE, &[X, Y])]);
    tracks(layer).flat_map(|first| (layer * TRACKS..=first).map(move |second| denied(first, second))).collect()
}

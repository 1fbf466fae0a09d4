//! Refusals in words: the rule, and what is wrong in the record at fault.
use bagwezin::Refusal;

use crate::network::{fits, kind_word, length, offsets, two};
use crate::Network;

/// A refused network: number, place, the rule, and which field breaks it.
pub fn network(bytes: &[u8], refusal: Refusal) -> String {
    let at = refusal.place as usize;
    let mut net = Network::default();
    for k in offsets(bytes).take_while(|&k| k < at) {
        if net.take(&bytes[k..]).is_err() {
            return refusal.to_string();
        }
    }
    let record = bytes.get(at..).unwrap_or(&[]);
    let kind = two(record, 2);
    let fault = match refusal.number {
        3 => length(record).err(),
        4 => kind.map(|k| format!("its kind is {k}")),
        6 => fits(record).err(),
        7 => net.take(record).err(),
        _ => None,
    };
    let word = kind.and_then(kind_word).filter(|_| (6..=7).contains(&refusal.number));
    match (word, fault) {
        (Some(word), Some(fault)) => format!("{refusal} ({word}: {fault})"),
        (None, Some(fault)) => format!("{refusal} ({fault})"),
        _ => refusal.to_string(),
    }
}

/// A refused batch, with the network's names.
pub fn batch(net: &Network, bytes: &[u8], refusal: Refusal) -> String {
    if refusal.number == 14 {
        let name = net.nodes.get(refusal.place as usize).map_or("?", |n| &n.name);
        let place = format!("at node {}", refusal.place);
        return refusal.to_string().replacen(&place, &format!("{place} ({name})"), 1);
    }
    let at = refusal.place as usize;
    let event = offsets(bytes).position(|k| k == at).map(|k| k + 1);
    match (event, fault(net, bytes.get(at..).unwrap_or(&[]), refusal)) {
        (Some(k), Some(fault)) => format!("{refusal} (record {k}: {fault})"),
        (None, Some(fault)) => format!("{refusal} ({fault})"),
        _ => refusal.to_string(),
    }
}

/// What is wrong with an event's record.
fn fault(net: &Network, record: &[u8], refusal: Refusal) -> Option<String> {
    let field = |k: usize| two(record, 2 * k);
    match refusal.number {
        10 => length(record).err(),
        11 => Some(format!("its kind is {}", field(1)?)),
        13 => {
            let size = field(0)?;
            if size < 6 {
                return Some(format!("with {size} bytes it names no node"));
            }
            let node = field(2)?;
            Some(match net.nodes.get(node) {
                None => format!("node {node} does not exist"),
                Some(n) if !net.is_table(node) => format!("node {node} ({}) is no table", n.name),
                Some(n) => {
                    let right = 6 + 4 * n.columns.len();
                    format!("it has {size} bytes, and a row of {} takes {right}", n.name)
                }
            })
        }
        _ => None,
    }
}

//! Writing messages, by the same plain codec.
use crate::codec::{Ballot, Body, Group, Message, Value, Vote};

fn is_node(size: u8, node: u8) -> bool {
    0 < node && node <= size
}

fn is_ballot(size: u8, ballot: Ballot) -> bool {
    0 < ballot.round && is_node(size, ballot.node)
}

fn is_value(size: u8, value: Value) -> bool {
    match value {
        Value::Noop => true,
        Value::Keys {
            node,
            start,
            first,
            bytes,
        } => {
            is_node(size, node)
                && 0 < start
                && 0 < first
                && 0 < bytes.len
                && bytes.len <= 32
                && first.checked_add(u32::from(bytes.len) - 1).is_some()
        }
    }
}

fn are_votes(size: u8, ballot: Ballot, first: u32, upto: u32, votes: &[Vote]) -> bool {
    let mut low = first;
    for vote in votes {
        if vote.place < low
            || vote.place >= upto
            || !is_ballot(size, vote.ballot)
            || vote.ballot > ballot
            || !is_value(size, vote.value)
        {
            return false;
        }
        low = vote.place + 1;
    }
    true
}

pub fn fits(message: &Message<Vec<Vote>>, group: Group) -> bool {
    let size = group.size;
    let sender = message.sender;
    is_node(size, sender)
        && match &message.body {
            Body::Prepare { ballot, from } => {
                is_ballot(size, *ballot) && ballot.node == sender && *from <= 65_535
            }
            Body::Promise {
                ballot,
                first,
                upto,
                votes,
            } => {
                is_ballot(size, *ballot)
                    && *first <= 65_535
                    && *upto <= 65_536
                    && first < upto
                    && votes.len() <= 8
                    && are_votes(size, *ballot, *first, *upto, votes)
            }
            Body::Accept {
                ballot,
                place,
                value,
            } => {
                is_ballot(size, *ballot)
                    && ballot.node == sender
                    && *place <= 65_535
                    && is_value(size, *value)
            }
            Body::Accepted {
                ballot,
                place,
                value,
            } => is_ballot(size, *ballot) && *place <= 65_535 && is_value(size, *value),
            Body::Refused { ballot, promised } => {
                is_ballot(size, *ballot) && is_ballot(size, *promised) && ballot < promised
            }
            Body::Submit { key } => {
                is_value(size, *key) && matches!(key, Value::Keys { node, .. } if *node == sender)
            }
            Body::Ask { from } => *from <= 65_536,
            Body::Tell { place, value } => *place <= 65_535 && is_value(size, *value),
        }
}

fn put_number(number: u32, out: &mut Vec<u8>) {
    out.extend_from_slice(&number.to_be_bytes());
}

fn put_ballot(ballot: Ballot, out: &mut Vec<u8>) {
    put_number(ballot.round, out);
    out.push(ballot.node);
}

fn put_value(value: Value, out: &mut Vec<u8>) {
    match value {
        Value::Noop => out.push(0),
        Value::Keys {
            node,
            start,
            first,
            bytes,
        } => {
            out.push(1);
            out.push(node);
            put_number(start, out);
            put_number(first, out);
            out.push(bytes.len);
            out.extend_from_slice(bytes.as_slice());
        }
    }
}

fn put_vote(vote: Vote, out: &mut Vec<u8>) {
    put_number(vote.place, out);
    put_ballot(vote.ballot, out);
    put_value(vote.value, out);
}

fn put_header(kind: u8, sender: u8, group: Group, out: &mut Vec<u8>) {
    out.extend_from_slice(&[b'P', b'G', 2, kind, sender, group.size]);
    put_number(group.session, out);
}

fn put_proposal(ballot: Ballot, place: u32, value: Value, out: &mut Vec<u8>) {
    put_ballot(ballot, out);
    put_number(place, out);
    put_value(value, out);
}

pub fn encode_into(message: &Message<Vec<Vote>>, group: Group, out: &mut Vec<u8>) {
    let sender = message.sender;
    match &message.body {
        Body::Prepare { ballot, from } => {
            put_header(1, sender, group, out);
            put_ballot(*ballot, out);
            put_number(*from, out);
        }
        Body::Promise {
            ballot,
            first,
            upto,
            votes,
        } => {
            put_header(2, sender, group, out);
            put_ballot(*ballot, out);
            put_number(*first, out);
            put_number(*upto, out);
            out.push(votes.len() as u8);
            for vote in votes {
                put_vote(*vote, out);
            }
        }
        Body::Accept {
            ballot,
            place,
            value,
        } => {
            put_header(3, sender, group, out);
            put_proposal(*ballot, *place, *value, out);
        }
        Body::Accepted {
            ballot,
            place,
            value,
        } => {
            put_header(4, sender, group, out);
            put_proposal(*ballot, *place, *value, out);
        }
        Body::Refused { ballot, promised } => {
            put_header(5, sender, group, out);
            put_ballot(*ballot, out);
            put_ballot(*promised, out);
        }
        Body::Submit { key } => {
            put_header(6, sender, group, out);
            put_value(*key, out);
        }
        Body::Ask { from } => {
            put_header(7, sender, group, out);
            put_number(*from, out);
        }
        Body::Tell { place, value } => {
            put_header(8, sender, group, out);
            put_number(*place, out);
            put_value(*value, out);
        }
    }
}

//! How many messages a second a plain hand-written codec decodes and encodes.
mod codec;
mod writing;

use codec::{decode, Body, Group, Lent, Message, Vote};
use std::io::{self, Read};
use std::time::Instant;
use writing::{encode_into, fits};

/// A number that is made of the message, so that it has to be read whole.
fn weight(message: &Message<Lent<'_>>) -> u64 {
    let place = match &message.body {
        Body::Prepare { from, .. } | Body::Ask { from } => u64::from(*from),
        Body::Promise { votes, .. } => votes.clone().map(|vote| u64::from(vote.place)).sum(),
        Body::Accept { place, .. } | Body::Accepted { place, .. } | Body::Tell { place, .. } => {
            u64::from(*place)
        }
        Body::Refused { promised, .. } => u64::from(promised.round),
        Body::Submit { .. } => 0,
    };
    u64::from(message.sender) + place
}

fn owned(message: Message<Lent<'_>>) -> Message<Vec<Vote>> {
    let body = match message.body {
        Body::Prepare { ballot, from } => Body::Prepare { ballot, from },
        Body::Promise {
            ballot,
            first,
            upto,
            votes,
        } => Body::Promise {
            ballot,
            first,
            upto,
            votes: votes.collect(),
        },
        Body::Accept {
            ballot,
            place,
            value,
        } => Body::Accept {
            ballot,
            place,
            value,
        },
        Body::Accepted {
            ballot,
            place,
            value,
        } => Body::Accepted {
            ballot,
            place,
            value,
        },
        Body::Refused { ballot, promised } => Body::Refused { ballot, promised },
        Body::Submit { key } => Body::Submit { key },
        Body::Ask { from } => Body::Ask { from },
        Body::Tell { place, value } => Body::Tell { place, value },
    };
    Message {
        sender: message.sender,
        body,
    }
}

fn report(work: &str, messages: u64, sum: u64, start: Instant) {
    let rate = messages * 1000 / (start.elapsed().as_millis() as u64).max(1);
    println!("plain {work} {rate} messages/s sum {sum}");
}

fn main() -> io::Result<()> {
    let rounds: u64 = std::env::args()
        .nth(1)
        .and_then(|word| word.parse().ok())
        .unwrap_or(0);
    let mut mix = Vec::new();
    io::stdin().read_to_end(&mut mix)?;
    let mut datagrams = Vec::new();
    let mut rest = mix.as_slice();
    while let [high, low, more @ ..] = rest {
        let (datagram, after) = more.split_at(usize::from(u16::from_be_bytes([*high, *low])));
        datagrams.push(datagram);
        rest = after;
    }
    let group = Group {
        size: 3,
        session: 7,
    };
    let messages = rounds * datagrams.len() as u64;

    let start = Instant::now();
    let mut sum = 0;
    for _ in 0..rounds {
        for datagram in &datagrams {
            if let Ok(message) = decode(std::hint::black_box(datagram), group) {
                sum += weight(&message);
            }
        }
    }
    report("decode", messages, sum, start);

    let all: Vec<_> = datagrams
        .iter()
        .filter_map(|d| decode(d, group).ok().map(owned))
        .collect();
    let mut out = Vec::with_capacity(1400);
    let start = Instant::now();
    let mut sum = 0;
    for _ in 0..rounds {
        for message in std::hint::black_box(&all) {
            out.clear();
            if fits(message, group) {
                encode_into(message, group, &mut out);
            }
            sum += std::hint::black_box(&out).len() as u64;
        }
    }
    report("encode", messages, sum, start);
    Ok(())
}

//! A plain hand-written codec of the same format, to measure the proved one against. It makes the
//! same checks, lends votes out of the datagram in the same way, and works on the same bytes.
#[derive(Clone, Copy, PartialEq, Eq, PartialOrd, Ord)]
pub struct Ballot {
    pub round: u32,
    pub node: u8,
}

/// The characters of a batch, and how many they are.
#[derive(Clone, Copy)]
pub struct Characters {
    pub len: u8,
    pub bytes: [u8; 32],
}

impl Characters {
    pub fn as_slice(&self) -> &[u8] {
        &self.bytes[..usize::from(self.len)]
    }
}

#[derive(Clone, Copy)]
pub enum Value {
    Noop,
    Keys {
        node: u8,
        start: u32,
        first: u32,
        bytes: Characters,
    },
}

#[derive(Clone, Copy)]
pub struct Vote {
    pub place: u32,
    pub ballot: Ballot,
    pub value: Value,
}

#[derive(Clone, Copy)]
pub struct Group {
    pub size: u8,
    pub session: u32,
}

pub enum Fault {
    Short,
    Magic,
    Version,
    Kind,
    Group,
    Sender,
    Ballot,
    Place,
    Value,
    Order,
    Count,
    Trailing,
}

pub enum Body<V> {
    Prepare {
        ballot: Ballot,
        from: u32,
    },
    Promise {
        ballot: Ballot,
        first: u32,
        upto: u32,
        votes: V,
    },
    Accept {
        ballot: Ballot,
        place: u32,
        value: Value,
    },
    Accepted {
        ballot: Ballot,
        place: u32,
        value: Value,
    },
    Refused {
        ballot: Ballot,
        promised: Ballot,
    },
    Submit {
        key: Value,
    },
    Ask {
        from: u32,
    },
    Tell {
        place: u32,
        value: Value,
    },
}

pub struct Message<V> {
    pub sender: u8,
    pub body: Body<V>,
}

#[derive(Clone)]
pub struct Lent<'a> {
    pub bytes: &'a [u8],
    pub count: u8,
}

struct Reader<'a>(&'a [u8]);

impl<'a> Reader<'a> {
    fn byte(&mut self) -> Result<u8, Fault> {
        let (byte, rest) = self.0.split_first().ok_or(Fault::Short)?;
        self.0 = rest;
        Ok(*byte)
    }

    fn number(&mut self) -> Result<u32, Fault> {
        let (bytes, rest) = self.0.split_first_chunk::<4>().ok_or(Fault::Short)?;
        self.0 = rest;
        Ok(u32::from_be_bytes(*bytes))
    }

    fn node(&mut self, size: u8, fault: Fault) -> Result<u8, Fault> {
        match self.byte()? {
            0 => Err(fault),
            node if node > size => Err(fault),
            node => Ok(node),
        }
    }

    fn ballot(&mut self, size: u8) -> Result<Ballot, Fault> {
        let round = self.number()?;
        if round == 0 {
            return Err(Fault::Ballot);
        }
        let node = self.node(size, Fault::Ballot)?;
        Ok(Ballot { round, node })
    }

    fn own_ballot(&mut self, group: Group, sender: u8) -> Result<Ballot, Fault> {
        let ballot = self.ballot(group.size)?;
        if ballot.node != sender {
            return Err(Fault::Ballot);
        }
        Ok(ballot)
    }

    fn place(&mut self, most: u32) -> Result<u32, Fault> {
        match self.number()? {
            place if place > most => Err(Fault::Place),
            place => Ok(place),
        }
    }

    fn count(&mut self) -> Result<u32, Fault> {
        match self.number()? {
            0 => Err(Fault::Value),
            count => Ok(count),
        }
    }

    /// So many characters, at most 32.
    fn characters(&mut self, len: u8) -> Result<Characters, Fault> {
        let (front, rest) = self.0.split_at_checked(usize::from(len)).ok_or(Fault::Short)?;
        self.0 = rest;
        let mut bytes = [0; 32];
        bytes[..front.len()].copy_from_slice(front);
        Ok(Characters { len, bytes })
    }

    /// Reads the fields of a batch that follow its node.
    fn keys_of(&mut self, node: u8) -> Result<Value, Fault> {
        let start = self.count()?;
        let first = self.number()?;
        let len = self.byte()?;
        if first == 0 || len == 0 || len > 32 || first.checked_add(u32::from(len) - 1).is_none() {
            return Err(Fault::Value);
        }
        Ok(Value::Keys {
            node,
            start,
            first,
            bytes: self.characters(len)?,
        })
    }

    fn keys(&mut self, size: u8) -> Result<Value, Fault> {
        let node = self.node(size, Fault::Value)?;
        self.keys_of(node)
    }

    fn value(&mut self, size: u8) -> Result<Value, Fault> {
        match self.byte()? {
            0 => Ok(Value::Noop),
            1 => self.keys(size),
            _ => Err(Fault::Value),
        }
    }

    fn own_keys(&mut self, size: u8, sender: u8) -> Result<Value, Fault> {
        if self.byte()? != 1 {
            return Err(Fault::Value);
        }
        let node = self.node(size, Fault::Value)?;
        if node != sender {
            return Err(Fault::Value);
        }
        self.keys_of(node)
    }

    fn promise(&mut self, size: u8) -> Result<Body<Lent<'a>>, Fault> {
        let ballot = self.ballot(size)?;
        let first = self.place(65_535)?;
        let upto = self.place(65_536)?;
        if upto <= first {
            return Err(Fault::Place);
        }
        let count = self.byte()?;
        if count > 8 {
            return Err(Fault::Count);
        }
        let votes = Lent {
            bytes: self.0,
            count,
        };
        let mut low = 0;
        for _ in 0..count {
            let place = self.number()?;
            if place < low {
                return Err(Fault::Order);
            }
            if place < first || place >= upto {
                return Err(Fault::Place);
            }
            if self.ballot(size)? > ballot {
                return Err(Fault::Ballot);
            }
            self.value(size)?;
            low = place + 1;
        }
        Ok(Body::Promise {
            ballot,
            first,
            upto,
            votes,
        })
    }

    fn body(&mut self, kind: u8, group: Group, sender: u8) -> Result<Body<Lent<'a>>, Fault> {
        let size = group.size;
        Ok(match kind {
            1 => Body::Prepare {
                ballot: self.own_ballot(group, sender)?,
                from: self.place(65_535)?,
            },
            2 => self.promise(size)?,
            3 => Body::Accept {
                ballot: self.own_ballot(group, sender)?,
                place: self.place(65_535)?,
                value: self.value(size)?,
            },
            4 => Body::Accepted {
                ballot: self.ballot(size)?,
                place: self.place(65_535)?,
                value: self.value(size)?,
            },
            5 => {
                let ballot = self.ballot(size)?;
                let promised = self.ballot(size)?;
                if promised <= ballot {
                    return Err(Fault::Ballot);
                }
                Body::Refused { ballot, promised }
            }
            6 => Body::Submit {
                key: self.own_keys(size, sender)?,
            },
            7 => Body::Ask {
                from: self.place(65_536)?,
            },
            _ => Body::Tell {
                place: self.place(65_535)?,
                value: self.value(size)?,
            },
        })
    }

    fn raw_vote(&mut self) -> Option<Vote> {
        let place = self.number().ok()?;
        let round = self.number().ok()?;
        let node = self.byte().ok()?;
        let value = match self.byte().ok()? {
            0 => Value::Noop,
            _ => {
                let node = self.byte().ok()?;
                let start = self.number().ok()?;
                let first = self.number().ok()?;
                let len = self.byte().ok()?;
                if len > 32 {
                    return None;
                }
                Value::Keys {
                    node,
                    start,
                    first,
                    bytes: self.characters(len).ok()?,
                }
            }
        };
        Some(Vote {
            place,
            ballot: Ballot { round, node },
            value,
        })
    }
}

impl Iterator for Lent<'_> {
    type Item = Vote;

    fn next(&mut self) -> Option<Vote> {
        if self.count == 0 {
            return None;
        }
        let mut reader = Reader(self.bytes);
        let vote = reader.raw_vote()?;
        self.bytes = reader.0;
        self.count -= 1;
        Some(vote)
    }
}

pub fn decode(bytes: &[u8], group: Group) -> Result<Message<Lent<'_>>, Fault> {
    if bytes.len() < 10 {
        return Err(Fault::Short);
    }
    if bytes[..2] != *b"PG" {
        return Err(Fault::Magic);
    }
    if bytes[2] != 2 {
        return Err(Fault::Version);
    }
    let kind = bytes[3];
    if kind == 0 || kind > 8 {
        return Err(Fault::Kind);
    }
    let session = u32::from_be_bytes([bytes[6], bytes[7], bytes[8], bytes[9]]);
    if bytes[5] != group.size || session != group.session {
        return Err(Fault::Group);
    }
    let sender = bytes[4];
    if sender == 0 || sender > group.size {
        return Err(Fault::Sender);
    }
    let mut reader = Reader(&bytes[10..]);
    let body = reader.body(kind, group, sender)?;
    if !reader.0.is_empty() {
        return Err(Fault::Trailing);
    }
    Ok(Message { sender, body })
}

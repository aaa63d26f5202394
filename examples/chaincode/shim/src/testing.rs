//! A ledger in memory, on which a chaincode's calls are tried natively.
//!
//! It answers as the ledger does: a call reads the committed state alone, also where it wrote
//! before, keys that begin with the byte 0 are refused and stand in no range, a chaincode writes its
//! own keys alone, and every limit counts. What it does not have is fuel, and memory that ends: a run of the module may be refused
//! where a call here is done.

use crate::{ABSENT, BAD_COUNT, BAD_KEY, BAD_LENGTH, BAD_LIMIT};
use crate::{MOST_KEY, MOST_LIMIT, MOST_RANGES, MOST_READ, MOST_VALUE, MOST_WRITTEN};
use std::cell::RefCell;
use std::collections::{BTreeMap, BTreeSet};
use std::ops::Bound;

/// Keys and their values.
type State = BTreeMap<Vec<u8>, Vec<u8>>;

/// A committed state, and the chaincode that is called on it.
#[derive(Clone, Default, Debug)]
pub struct Ledger {
    state: State,
    /// What each key begins with that the chaincode may write.
    own: Vec<u8>,
}

/// How a call ended.
#[derive(Clone, PartialEq, Eq, Debug)]
pub struct Call {
    /// What `invoke` answered: 0 where the call is done. Of any other the answer alone is kept, and the
    /// rest here is empty.
    pub status: i32,
    /// The result that the call set last.
    pub answer: Vec<u8>,
    /// The keys that the call read, present and absent ones. Those of a range's entries are not
    /// among them.
    pub reads: BTreeSet<Vec<u8>>,
    /// What each key that the call wrote will have: a value, or `None` where it is deleted.
    pub writes: BTreeMap<Vec<u8>, Option<Vec<u8>>>,
}

impl Ledger {
    /// An empty state under rules 1, by which a chaincode writes any key.
    pub fn new() -> Self {
        Self::default()
    }

    /// An empty state on which the chaincode of this name writes its own keys alone.
    pub fn of_chaincode(name: &str) -> Self {
        Self {
            state: State::new(),
            own: format!("{name}/").into_bytes(),
        }
    }

    /// The committed value of a key.
    pub fn get(&self, key: &[u8]) -> Option<&[u8]> {
        self.state.get(key).map(Vec::as_slice)
    }

    /// Commits this value of a key, which may begin with the byte 0, as a definition's does.
    ///
    /// Panics where the key has not 1 to 64 bytes or the value more than 4,096.
    pub fn set(&mut self, key: &[u8], value: &[u8]) {
        assert!(
            (1..=MOST_KEY).contains(&key.len()),
            "a key has 1 to {MOST_KEY} bytes"
        );
        assert!(
            value.len() <= MOST_VALUE,
            "a value has up to {MOST_VALUE} bytes"
        );
        self.state.insert(key.to_vec(), value.to_vec());
    }

    /// Calls `invoke` with this argument on the state, which stays as it is.
    ///
    /// Panics where the argument has more than 4,096 bytes, where `invoke` does, or where it calls
    /// this.
    pub fn call<S: Into<i32>>(
        &self,
        invoke: impl FnOnce() -> Result<(), S>,
        argument: &[u8],
    ) -> Call {
        assert!(
            argument.len() <= MOST_VALUE,
            "an argument has up to {MOST_VALUE} bytes"
        );
        let running = Running::begin(self.clone(), argument.to_vec());
        let status = crate::status_of(invoke());
        running.end(status)
    }

    /// Commits what a call writes.
    pub fn commit(&mut self, call: &Call) {
        for (key, written) in &call.writes {
            match written {
                Some(value) => self.state.insert(key.clone(), value.clone()),
                None => self.state.remove(key),
            };
        }
    }
}

/// What a call that runs can see, and what it did.
struct Record {
    ledger: Ledger,
    argument: Vec<u8>,
    ranges: usize,
    call: Call,
}

thread_local! {
    static RECORD: RefCell<Option<Record>> = const { RefCell::new(None) };
}

/// That a call runs on this thread. None runs any more when this is gone, also by a panic of the
/// call.
struct Running;

impl Running {
    fn begin(ledger: Ledger, argument: Vec<u8>) -> Self {
        let call = Call {
            status: 0,
            answer: Vec::new(),
            reads: BTreeSet::new(),
            writes: BTreeMap::new(),
        };
        RECORD.with(|record| {
            assert!(
                record.borrow().is_none(),
                "a call runs on this thread already"
            );
            *record.borrow_mut() = Some(Record {
                ledger,
                argument,
                ranges: 0,
                call,
            });
        });
        Running
    }

    fn end(self, status: i32) -> Call {
        let done = in_record(|record| record.call.clone());
        if status == 0 {
            return done;
        }
        Call {
            status,
            answer: done.answer,
            reads: BTreeSet::new(),
            writes: BTreeMap::new(),
        }
    }
}

impl Drop for Running {
    fn drop(&mut self) {
        RECORD.with(|record| *record.borrow_mut() = None);
    }
}

fn in_record<T>(act: impl FnOnce(&mut Record) -> T) -> T {
    RECORD.with(|record| {
        act(record
            .borrow_mut()
            .as_mut()
            .expect("a call runs, by testing::Ledger::call"))
    })
}

pub(crate) fn get_state(key: &[u8], target: &mut [u8]) -> i32 {
    if !is_key(key) {
        return BAD_KEY;
    }
    in_record(|record| {
        let reads = &mut record.call.reads;
        if !reads.contains(key) && reads.len() == MOST_READ {
            return BAD_COUNT;
        }
        reads.insert(key.to_vec());
        record
            .ledger
            .get(key)
            .map_or(ABSENT, |value| reply(value, target))
    })
}

pub(crate) fn put_state(key: &[u8], value: &[u8]) -> i32 {
    write(key, Some(value))
}

pub(crate) fn del_state(key: &[u8]) -> i32 {
    write(key, None)
}

fn write(key: &[u8], value: Option<&[u8]>) -> i32 {
    in_record(|record| {
        if !is_key(key) || !key.starts_with(&record.ledger.own) {
            return BAD_KEY;
        }
        if value.map_or(0, <[u8]>::len) > MOST_VALUE {
            return BAD_LENGTH;
        }
        let writes = &mut record.call.writes;
        if !writes.contains_key(key) && writes.len() == MOST_WRITTEN {
            return BAD_COUNT;
        }
        writes.insert(key.to_vec(), value.map(<[u8]>::to_vec));
        0
    })
}

pub(crate) fn range_state(start: &[u8], end: &[u8], limit: usize, target: &mut [u8]) -> i32 {
    if start.len() > MOST_KEY || end.len() > MOST_KEY {
        return BAD_KEY;
    }
    if !(1..=MOST_LIMIT).contains(&limit) {
        return BAD_LIMIT;
    }
    in_record(|record| {
        if record.ranges == MOST_RANGES {
            return BAD_COUNT;
        }
        record.ranges += 1;
        let from = (Bound::Included(start), Bound::Unbounded);
        let held = record
            .ledger
            .state
            .range::<[u8], _>(from)
            .filter(|(key, _)| is_key(key));
        let below = held.take_while(|(key, _)| end.is_empty() || key.as_slice() < end);
        let entries: Vec<_> = below.take(limit).collect();
        let mut bytes = vec![entries.len() as u8];
        for (key, value) in entries {
            bytes.push(key.len() as u8);
            bytes.extend(key);
            bytes.extend((value.len() as u16).to_le_bytes());
            bytes.extend(value);
        }
        reply(&bytes, target)
    })
}

pub(crate) fn get_arg(target: &mut [u8]) -> i32 {
    in_record(|record| reply(&record.argument, target))
}

pub(crate) fn set_result(result: &[u8]) -> i32 {
    if result.len() > MOST_VALUE {
        return BAD_LENGTH;
    }
    in_record(|record| record.call.answer = result.to_vec());
    0
}

/// Whether a call may name this key.
fn is_key(key: &[u8]) -> bool {
    (1..=MOST_KEY).contains(&key.len()) && key[0] != 0
}

/// The length of a reply, which is written if it fits whole.
fn reply(bytes: &[u8], target: &mut [u8]) -> i32 {
    if let Some(room) = target.get_mut(..bytes.len()) {
        room.copy_from_slice(bytes);
    }
    bytes.len() as i32
}

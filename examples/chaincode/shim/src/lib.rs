//! What chaincode in Rust calls: the six functions of the module `fabric`, without allocation.
//!
//! A chaincode is a function that reads its argument and the committed state, and says what it
//! writes and answers. What it reads comes into buffers of its own.
//!
//! ```
//! enum Status {
//!     BadArgument = 1,
//!     Missing = 2,
//! }
//!
//! impl From<Status> for i32 {
//!     fn from(status: Status) -> i32 {
//!         status as i32
//!     }
//! }
//!
//! impl From<shim::Refusal> for Status {
//!     fn from(_: shim::Refusal) -> Status {
//!         Status::BadArgument
//!     }
//! }
//!
//! /// The result is the owner of the asset that the argument names.
//! fn invoke() -> Result<(), Status> {
//!     let (mut name, mut owner) = ([0; 32], [0; 32]);
//!     let name = shim::argument(&mut name)?;
//!     let owner = shim::get(name, &mut owner)?.ok_or(Status::Missing)?;
//!     Ok(shim::answer(owner)?)
//! }
//!
//! shim::start!(invoke);
//!
//! let mut ledger = shim::testing::Ledger::of_chaincode("owners");
//! ledger.set(b"pallet-7", b"Maker");
//! assert_eq!(ledger.call(invoke, b"pallet-7").answer, b"Maker");
//! assert_eq!(ledger.call(invoke, b"pallet-8").status, 2);
//! ```
//!
//! On `wasm32` the calls go to the ledger that runs the module. On any other target they go to
//! `testing::Ledger`, so that `cargo test` tries a chaincode as it stands. docs/CHAINCODE.md says
//! how to build one.

#![cfg_attr(target_arch = "wasm32", no_std)]
#![warn(missing_docs)]

#[cfg(target_arch = "wasm32")]
mod host;
#[cfg(not(target_arch = "wasm32"))]
pub mod testing;

#[cfg(not(target_arch = "wasm32"))]
use testing as host;

/// The most bytes of a key, and of a bound of a range.
pub const MOST_KEY: usize = 64;
/// The most bytes of a value, an argument and an answer.
pub const MOST_VALUE: usize = 4_096;
/// The most keys that a call reads.
pub const MOST_READ: usize = 256;
/// The most keys that a call writes.
pub const MOST_WRITTEN: usize = 64;
/// The most ranges that a call asks for.
pub const MOST_RANGES: usize = 16;
/// The most entries that a range is asked for.
pub const MOST_LIMIT: usize = 64;

/// Why a call of the ledger gave nothing. Unless it is `Capacity`, nothing was recorded either.
#[derive(Clone, Copy, PartialEq, Eq, Debug)]
pub enum Refusal {
    /// -2: a key has not 1 to 64 bytes or begins with the byte 0, one to write is not the
    /// chaincode's own, or a bound of a range has more than 64.
    Key,
    /// -3: one more key read than 256, key written than 64, or range than 16.
    Count,
    /// -4: a value or an answer has more than 4,096 bytes.
    Length,
    /// -5: the limit of a range is not 1 to 64.
    Limit,
    /// The buffer is too small for what was asked for, which has so many bytes. A key or a range
    /// counts as read.
    Capacity(usize),
}

/// The committed value of a key, also after this call wrote the key; `None` where the key is
/// absent. Either way the key counts as read.
///
/// Refused by `Key`, `Count` and `Capacity`.
pub fn get<'a>(key: &[u8], buffer: &'a mut [u8]) -> Result<Option<&'a [u8]>, Refusal> {
    match host::get_state(key, buffer) {
        ABSENT => Ok(None),
        answer => filled(buffer, answer).map(Some),
    }
}

/// Whether a key has a committed value. The key counts as read.
///
/// Refused by `Key` and `Count`.
pub fn contains(key: &[u8]) -> Result<bool, Refusal> {
    match host::get_state(key, &mut []) {
        ABSENT => Ok(false),
        answer if answer < 0 => Err(refusal(answer)),
        _ => Ok(true),
    }
}

/// Gives one of the chaincode's [own keys](own_key!) this value. The last write of a key counts.
///
/// Refused by `Key`, `Length` and `Count`.
pub fn put(key: &[u8], value: &[u8]) -> Result<(), Refusal> {
    done(host::put_state(key, value))
}

/// Makes one of the chaincode's [own keys](own_key!) absent. The last write of a key counts.
///
/// Refused by `Key` and `Count`.
pub fn delete(key: &[u8]) -> Result<(), Refusal> {
    done(host::del_state(key))
}

/// The first `limit` committed entries from the key `start` on, or from the first key where it is
/// empty, and below the key `end`, or without a bound where it is empty. The range counts as read.
/// [`capacity_for`] says how large a buffer has to be.
///
/// Refused by `Key`, `Limit`, `Count` and `Capacity`.
pub fn range<'a>(
    start: &[u8],
    end: &[u8],
    limit: usize,
    buffer: &'a mut [u8],
) -> Result<Entries<'a>, Refusal> {
    let answer = host::range_state(start, end, limit, buffer);
    let reply = filled(buffer, answer)?;
    Ok(Entries {
        left: reply.get(1..).unwrap_or_default(),
    })
}

/// The capacity that a range of so many entries needs, if no key and no value is longer than said.
pub const fn capacity_for(entries: usize, key: usize, value: usize) -> usize {
    1 + entries * (1 + key + 2 + value)
}

/// The argument of the call.
///
/// Refused by `Capacity`.
pub fn argument(buffer: &mut [u8]) -> Result<&[u8], Refusal> {
    let answer = host::get_arg(buffer);
    filled(buffer, answer)
}

/// Makes these bytes the result of the call. The last answer counts.
///
/// Refused by `Length`.
pub fn answer(bytes: &[u8]) -> Result<(), Refusal> {
    done(host::set_result(bytes))
}

/// The parts, one behind the other: a key of a prefix and a name, or a line of an answer. The
/// ledger is not asked.
///
/// Refused by `Capacity`.
pub fn join<'a>(parts: &[&[u8]], buffer: &'a mut [u8]) -> Result<&'a [u8], Refusal> {
    let length = parts.iter().map(|part| part.len()).sum();
    let mut free = buffer.get_mut(..length).ok_or(Refusal::Capacity(length))?;
    for part in parts {
        let (target, rest) = free.split_at_mut(part.len());
        target.copy_from_slice(part);
        free = rest;
    }
    Ok(&buffer[..length])
}

/// A key and its committed value.
#[derive(Clone, Copy, PartialEq, Eq, Debug)]
pub struct Entry<'a> {
    /// The key.
    pub key: &'a [u8],
    /// Its value.
    pub value: &'a [u8],
}

/// The entries of a range, by ascending keys.
#[derive(Clone, Debug)]
pub struct Entries<'a> {
    /// For each entry that is left the key's length in one byte, the key, the value's length in two
    /// bytes, the least first, and the value.
    left: &'a [u8],
}

impl<'a> Iterator for Entries<'a> {
    type Item = Entry<'a>;

    fn next(&mut self) -> Option<Entry<'a>> {
        let (length, rest) = first(self.left, 1)?;
        let (key, rest) = first(rest, usize::from(length[0]))?;
        let (length, rest) = first(rest, 2)?;
        let (value, rest) = first(rest, usize::from(length[0]) + 256 * usize::from(length[1]))?;
        self.left = rest;
        Some(Entry { key, value })
    }
}

impl core::iter::FusedIterator for Entries<'_> {}

/// So many bytes, and those behind them.
fn first(bytes: &[u8], count: usize) -> Option<(&[u8], &[u8])> {
    Some((bytes.get(..count)?, bytes.get(count..)?))
}

/// A key of the chaincode that has this name, or what several of its keys begin with: the name, `/`
/// and the rest. Both are constant texts.
///
/// A chaincode writes only its own keys, and reads all. Under rules 1 it writes any key.
///
/// ```
/// const CHAINCODE: &str = "escrow";
/// const PREFIX: &[u8] = shim::own_key!(CHAINCODE, "deal/");
/// assert_eq!(PREFIX, b"escrow/deal/");
/// ```
#[macro_export]
macro_rules! own_key {
    ($chaincode:expr, $rest:expr) => {{
        const KEY: [u8; $chaincode.len() + 1 + $rest.len()] = $crate::key_of($chaincode, $rest);
        &KEY
    }};
}

/// What [`own_key!`] makes.
pub const fn key_of<const LENGTH: usize>(chaincode: &str, rest: &str) -> [u8; LENGTH] {
    let (name, rest) = (chaincode.as_bytes(), rest.as_bytes());
    let mut key = [b'/'; LENGTH];
    let mut at = 0;
    while at < name.len() + rest.len() {
        if at < name.len() {
            key[at] = name[at];
        } else {
            key[at + 1] = rest[at - name.len()];
        }
        at += 1;
    }
    key
}

/// Makes a function the module's `invoke`. It takes nothing and gives a `Result<(), S>`: `Ok` where
/// the call is done, else its status, a number from `S: Into<i32>` that is not 0. A panic ends the
/// run with trap 1 (unreachable).
#[macro_export]
macro_rules! start {
    ($invoke:path) => {
        const _: () = {
            #[cfg_attr(target_arch = "wasm32", export_name = "invoke")]
            #[allow(dead_code)]
            extern "C" fn start() -> i32 {
                $crate::status_of($invoke())
            }

            #[cfg(target_arch = "wasm32")]
            #[panic_handler]
            fn panic(_: &core::panic::PanicInfo) -> ! {
                core::arch::wasm32::unreachable()
            }
        };
    };
}

/// What a module's `invoke` answers for this outcome: 0, or the number of why the call is refused.
///
/// Panics where that number is 0, by which the call would count as done.
pub fn status_of(outcome: Result<(), impl Into<i32>>) -> i32 {
    match outcome.map_err(Into::into) {
        Ok(()) => 0,
        Err(0) => panic!("the status of a refused call is not 0"),
        Err(status) => status,
    }
}

// What the ledger answers in place of a length.
const ABSENT: i32 = -1;
const BAD_KEY: i32 = -2;
const BAD_COUNT: i32 = -3;
const BAD_LENGTH: i32 = -4;
#[cfg(not(target_arch = "wasm32"))]
const BAD_LIMIT: i32 = -5;

/// What one of the answers from -2 to -5 says.
fn refusal(answer: i32) -> Refusal {
    match answer {
        BAD_KEY => Refusal::Key,
        BAD_COUNT => Refusal::Count,
        BAD_LENGTH => Refusal::Length,
        _ => Refusal::Limit,
    }
}

fn done(answer: i32) -> Result<(), Refusal> {
    if answer == 0 {
        Ok(())
    } else {
        Err(refusal(answer))
    }
}

/// The bytes that the ledger left in a buffer, if its answer is their length.
fn filled(buffer: &[u8], answer: i32) -> Result<&[u8], Refusal> {
    if answer < 0 {
        return Err(refusal(answer));
    }
    let length = answer as usize;
    buffer.get(..length).ok_or(Refusal::Capacity(length))
}

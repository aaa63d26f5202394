//! The register of assets of `../../asset_register.c`, in Rust. An asset is a key `assets/asset/` and
//! its name, whose value is its owner.
//!
//! The argument is a word, and what follows it, with one space between:
//!
//! ```text
//! create NAME OWNER    a new asset; status 2 if there is one of this name
//! read NAME            the result is the owner; status 3 if there is no such asset
//! transfer NAME OWNER  a new owner; status 3 if there is no such asset
//! delete NAME          takes the asset out; status 3 if there is no such asset
//! list                 the result is the names and owners of the first 16 assets, one a line
//! ```
//!
//! Status 1 answers any other argument. Names and owners have 1 to 32 bytes without spaces.

#![cfg_attr(target_arch = "wasm32", no_std)]

use shim::Refusal;

/// The name of the chaincode, with which its keys begin.
const CHAINCODE: &str = "assets";
const MOST_ARGUMENT: usize = 128;
const MOST_WORD: usize = 32;
const MOST_LISTED: usize = 16;
const PREFIX: &[u8] = shim::own_key!(CHAINCODE, "asset/");
/// Where the assets end: `0` is the byte after `/`.
const END: &[u8] = shim::own_key!(CHAINCODE, "asset0");
const MOST_KEY: usize = PREFIX.len() + MOST_WORD;
const MOST_LINE: usize = MOST_WORD + 1 + MOST_WORD + 1;

/// Why a call is refused.
enum Status {
    BadArgument = 1,
    Exists = 2,
    Missing = 3,
}

impl From<Status> for i32 {
    fn from(status: Status) -> i32 {
        status as i32
    }
}

impl From<Refusal> for Status {
    fn from(_: Refusal) -> Status {
        Status::BadArgument
    }
}

shim::start!(invoke);

fn invoke() -> Result<(), Status> {
    let mut buffer = [0; MOST_ARGUMENT];
    let mut rest = shim::argument(&mut buffer)?;
    let verb = next_word(&mut rest);
    let name = next_word(&mut rest);
    let owner = next_word(&mut rest);
    if !rest.is_empty() {
        return Err(Status::BadArgument);
    }
    if verb == b"list" && name.is_empty() && owner.is_empty() {
        return list();
    }
    if !is_allowed(name) {
        return Err(Status::BadArgument);
    }
    let mut buffer = [0; MOST_KEY];
    let key = shim::join(&[PREFIX, name], &mut buffer)?;
    match verb {
        b"read" if owner.is_empty() => read(key),
        b"delete" if owner.is_empty() => delete(key),
        b"create" if is_allowed(owner) => create(key, owner),
        b"transfer" if is_allowed(owner) => transfer(key, owner),
        _ => Err(Status::BadArgument),
    }
}

/// The next word of the argument, and the rest of it after one space.
fn next_word<'a>(rest: &mut &'a [u8]) -> &'a [u8] {
    let mut parts = rest.splitn(2, |byte| *byte == b' ');
    let word = parts.next().unwrap_or_default();
    *rest = parts.next().unwrap_or_default();
    word
}

fn is_allowed(word: &[u8]) -> bool {
    (1..=MOST_WORD).contains(&word.len())
}

fn create(key: &[u8], owner: &[u8]) -> Result<(), Status> {
    if shim::contains(key)? {
        return Err(Status::Exists);
    }
    Ok(shim::put(key, owner)?)
}

fn read(key: &[u8]) -> Result<(), Status> {
    let mut buffer = [0; MOST_WORD];
    let owner = shim::get(key, &mut buffer)?.ok_or(Status::Missing)?;
    Ok(shim::answer(owner)?)
}

fn transfer(key: &[u8], owner: &[u8]) -> Result<(), Status> {
    if !shim::contains(key)? {
        return Err(Status::Missing);
    }
    Ok(shim::put(key, owner)?)
}

fn delete(key: &[u8]) -> Result<(), Status> {
    if !shim::contains(key)? {
        return Err(Status::Missing);
    }
    Ok(shim::delete(key)?)
}

fn list() -> Result<(), Status> {
    let mut buffer = [0; shim::capacity_for(MOST_LISTED, MOST_KEY, MOST_WORD)];
    let mut lines = [0; MOST_LISTED * MOST_LINE];
    let mut written = 0;
    for asset in shim::range(PREFIX, END, MOST_LISTED, &mut buffer)? {
        let line = [&asset.key[PREFIX.len()..], b" ", asset.value, b"\n"];
        written += shim::join(&line, &mut lines[written..])?.len();
    }
    Ok(shim::answer(&lines[..written])?)
}

#[cfg(test)]
mod tests {
    use super::{invoke, CHAINCODE};
    use shim::testing::{Call, Ledger};

    /// A ledger on which pallet-7 is the Maker's and pallet-8 the Shop's.
    fn two_pallets() -> Ledger {
        let mut ledger = Ledger::of_chaincode(CHAINCODE);
        ledger.set(b"assets/asset/pallet-7", b"Maker");
        ledger.set(b"assets/asset/pallet-8", b"Shop");
        ledger
    }

    fn call(argument: &str) -> Call {
        two_pallets().call(invoke, argument.as_bytes())
    }

    #[test]
    fn create_writes_the_owner_of_a_new_asset() {
        let call = call("create pallet-9 Carrier");
        assert_eq!((call.status, call.answer.as_slice()), (0, &b""[..]));
        assert!(call.reads.iter().eq([b"assets/asset/pallet-9"]));
        assert_eq!(
            call.writes[&b"assets/asset/pallet-9"[..]].as_deref(),
            Some(&b"Carrier"[..])
        );
    }

    #[test]
    fn read_answers_the_owner() {
        let call = call("read pallet-8");
        assert_eq!((call.status, call.answer.as_slice()), (0, &b"Shop"[..]));
        assert!(call.writes.is_empty());
    }

    #[test]
    fn what_was_transferred_and_deleted_is_listed_no_more() {
        let mut ledger = two_pallets();
        ledger.commit(&ledger.call(invoke, b"create pallet-6 Maker"));
        ledger.commit(&ledger.call(invoke, b"transfer pallet-7 Carrier"));
        ledger.commit(&ledger.call(invoke, b"delete pallet-8"));
        let listed = ledger.call(invoke, b"list");
        assert_eq!(
            (listed.status, listed.answer.as_slice()),
            (0, &b"pallet-6 Maker\npallet-7 Carrier\n"[..])
        );
    }

    #[test]
    fn list_ends_after_16_assets_and_keeps_to_them() {
        let mut ledger = Ledger::of_chaincode(CHAINCODE);
        ledger.set(b"assets/asset0", b"behind");
        ledger.set(b"assets/asset", b"before");
        for name in 10..30 {
            ledger.set(format!("assets/asset/{name}").as_bytes(), &[b'x'; 32]);
        }
        let listed = ledger.call(invoke, b"list");
        let lines: Vec<_> = listed
            .answer
            .split_inclusive(|byte| *byte == b'\n')
            .collect();
        assert_eq!((listed.status, lines.len()), (0, 16));
        assert!(lines[0].starts_with(b"10 x") && lines[15].starts_with(b"25 x"));
    }

    #[test]
    fn a_refused_call_has_its_status() {
        let long = "x".repeat(33);
        for (argument, status) in [
            ("create pallet-7 Carrier", 2),
            ("read pallet-9", 3),
            ("transfer pallet-9 Carrier", 3),
            ("delete pallet-9", 3),
            ("", 1),
            ("read", 1),
            ("read ", 1),
            ("read pallet-7 Maker", 1),
            ("delete pallet-7 Maker", 1),
            ("create pallet-9", 1),
            ("create pallet-9 Carrier now", 1),
            ("list all", 1),
            ("list  Shop", 1),
            ("reads pallet-7", 1),
            (&format!("read {long}"), 1),
            (&format!("create pallet-9 {long}"), 1),
            (&format!("read {}", "x".repeat(124)), 1),
        ] {
            assert_eq!(call(argument).status, status, "{argument}");
        }
    }
}

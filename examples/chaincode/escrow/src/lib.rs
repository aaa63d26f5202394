//! The escrow of `../../escrow.c`, in Rust. A deal is a key `escrow/deal/` and its name. Its value is
//! its state, a space and its terms.
//!
//! ```text
//! open NAME TERMS   a new deal, which is open; status 2 if there is one of this name
//! pay NAME          from open to paid
//! release NAME      from paid to done: the goods came
//! refund NAME       from paid to void: they did not
//! show NAME         the result is the deal
//! ```
//!
//! Status 3: there is no such deal. Status 4: it is in another state. Status 1: the argument is none
//! of these.

#![cfg_attr(target_arch = "wasm32", no_std)]

use shim::Refusal;

/// The name of the chaincode, with which its keys begin.
const CHAINCODE: &str = "escrow";
const PREFIX: &[u8] = shim::own_key!(CHAINCODE, "deal/");
const MOST_ARGUMENT: usize = 128;
const MOST_NAME: usize = 32;
const STATE: usize = 4;
const MOST_TERMS: usize = 64;

/// Why a call is refused.
enum Status {
    BadArgument = 1,
    Exists = 2,
    Missing = 3,
    WrongState = 4,
}

impl From<Status> for i32 {
    fn from(status: Status) -> i32 {
        status as i32
    }
}

impl From<Refusal> for Status {
    fn from(_: Refusal) -> Status {
        Status::BadArgument
    }
}

shim::start!(invoke);

fn invoke() -> Result<(), Status> {
    let mut buffer = [0; MOST_ARGUMENT];
    let mut words = shim::argument(&mut buffer)?.splitn(3, |byte| *byte == b' ');
    let verb = words.next().unwrap_or_default();
    let name = words.next().unwrap_or_default();
    let terms = words.next().unwrap_or_default();
    if !(1..=MOST_NAME).contains(&name.len()) || terms.len() > MOST_TERMS {
        return Err(Status::BadArgument);
    }
    let mut buffer = [0; PREFIX.len() + MOST_NAME];
    let key = shim::join(&[PREFIX, name], &mut buffer)?;
    let mut buffer = [0; STATE + 1 + MOST_TERMS];
    let deal = shim::get(key, &mut buffer)?;
    match (verb, terms.is_empty()) {
        (b"open", false) if deal.is_some() => Err(Status::Exists),
        (b"open", false) => put(key, b"open", terms),
        (b"pay", true) => turn(key, deal, b"open", b"paid"),
        (b"release", true) => turn(key, deal, b"paid", b"done"),
        (b"refund", true) => turn(key, deal, b"paid", b"void"),
        (b"show", true) => Ok(shim::answer(deal.ok_or(Status::Missing)?)?),
        _ => Err(Status::BadArgument),
    }
}

/// Takes a deal from one state to the next.
fn turn(key: &[u8], deal: Option<&[u8]>, from: &[u8], to: &[u8]) -> Result<(), Status> {
    let terms = deal.ok_or(Status::Missing)?.strip_prefix(from);
    put(key, to, &terms.ok_or(Status::WrongState)?[1..])
}

fn put(key: &[u8], state: &[u8], terms: &[u8]) -> Result<(), Status> {
    let mut buffer = [0; STATE + 1 + MOST_TERMS];
    let deal = shim::join(&[state, b" ", terms], &mut buffer)?;
    Ok(shim::put(key, deal)?)
}

#[cfg(test)]
mod tests {
    use super::{invoke, CHAINCODE, MOST_NAME, MOST_TERMS};
    use shim::testing::Ledger;

    #[test]
    fn a_deal_is_opened_paid_and_done_once() {
        let mut ledger = Ledger::of_chaincode(CHAINCODE);
        for (argument, status) in [
            ("pay d1", 3),
            ("open d1 Anna Ben 100", 0),
            ("open d1 Anna Ben 100", 2),
            ("release d1", 4),
            ("pay d1", 0),
            ("pay d1", 4),
            ("release d1", 0),
            ("refund d1", 4),
        ] {
            let call = ledger.call(invoke, argument.as_bytes());
            assert_eq!(call.status, status, "{argument}");
            ledger.commit(&call);
        }
        let call = ledger.call(invoke, b"show d1");
        assert_eq!(call.answer, b"done Anna Ben 100");
    }

    #[test]
    fn what_is_no_argument_is_refused() {
        let ledger = Ledger::of_chaincode(CHAINCODE);
        let long = "7".repeat(MOST_NAME + 1);
        for (argument, status) in [
            (format!("show {}", &long[1..]), 3),
            (format!("show {long}"), 1),
            (format!("open d2 {}", "7".repeat(MOST_TERMS)), 0),
            (format!("open d2 {}", "7".repeat(MOST_TERMS + 1)), 1),
            ("open d2".to_string(), 1),
            ("pay d1 now".to_string(), 1),
            ("pays d1".to_string(), 1),
            (String::new(), 1),
        ] {
            let call = ledger.call(invoke, argument.as_bytes());
            assert_eq!(call.status, status, "{argument}");
        }
    }
}

//! Each act by numbers: what it does and answers, and each error that a test can meet.

use faultyard::{Begun, Delivered, Error, Guard, Key, Kind, Kinds, Refusal, Rule, Scope, Synced};

const CONFIG: &str = include_str!("cluster.toml");
const STORAGE: u32 = 0;
const FAULT: u32 = 1;
const LIMITED: u32 = 2;
const OPERATOR: u32 = 3;

fn opened() -> Guard {
    Guard::open(CONFIG).unwrap()
}

fn refused<T>(refusal: Refusal) -> Result<T, Error> {
    Err(Error::Refused(refusal))
}

fn refused_by<T>(refusal: Refusal, named: u32) -> Result<T, Error> {
    Err(Error::RefusedBy { refusal, named })
}

/// The last entry has this act and this reply.
fn entered(guard: &Guard, act: &str, reply: &str) {
    let entry = guard.entry(guard.journal_len() - 1).unwrap();
    assert!(
        entry.starts_with(&format!(r#"{{"act":{act},"at":"#)),
        "{entry}"
    );
    assert!(
        entry.ends_with(&format!(",\"reply\":{reply}}}\n")),
        "{entry}"
    );
}

#[test]
fn a_record_is_stored_copied_and_moved() {
    let mut guard = opened();
    assert_eq!(guard.form(STORAGE, &[0, 2], 0), Ok(0));
    entered(
        &guard,
        r#"{"form":{"members":[0,2],"policy":0}}"#,
        r#"{"formed":0}"#,
    );
    let begun = guard.begin(STORAGE, 0, b"hi").unwrap();
    assert_eq!(
        begun,
        Begun {
            record: 0,
            first: 0
        }
    );
    entered(
        &guard,
        r#"{"begin":{"payload":"6869","team":0}}"#,
        r#"{"begun":{"first":0,"record":0}}"#,
    );
    assert_eq!(guard.lose(STORAGE, 1), Ok(()));
    entered(&guard, r#"{"lose":{"message":1}}"#, r#""done""#);
    assert_eq!(guard.resend(STORAGE, 0, 2), Ok(2));
    entered(
        &guard,
        r#"{"resend":{"process":2,"record":0}}"#,
        r#"{"sent":2}"#,
    );
    for message in [0, 2] {
        assert_eq!(guard.deliver(STORAGE, message), Ok(Delivered::Stored));
    }
    assert_eq!(guard.sync(STORAGE, 0), Ok(Synced { count: 1, first: 3 }));
    assert_eq!(guard.sync(STORAGE, 2), Ok(Synced { count: 1, first: 4 }));
    entered(
        &guard,
        r#"{"sync":{"process":2}}"#,
        r#"{"synced":{"count":1,"first":4}}"#,
    );
    let marked = |acked| Ok(Delivered::Marked { acked });
    assert_eq!(guard.deliver(STORAGE, 3), marked(false));
    assert_eq!(guard.deliver(STORAGE, 4), marked(true));
    entered(&guard, r#"{"deliver":{"message":4}}"#, r#"{"marked":true}"#);
    assert_eq!(guard.tick(STORAGE, 9), Ok(9));
    entered(&guard, r#"{"tick":{"ticks":9}}"#, r#"{"time":9}"#);
    assert_eq!(
        guard.replace(STORAGE, 0, 0, 1),
        refused_by(Refusal::StillNeeds, 0)
    );
    assert_eq!(guard.copy(STORAGE, 2, 0, 1), Ok(5));
    entered(
        &guard,
        r#"{"copy":{"from":2,"record":0,"to":1}}"#,
        r#"{"sent":5}"#,
    );
    assert_eq!(guard.deliver(STORAGE, 5), Ok(Delivered::Stored));
    assert_eq!(guard.sync(STORAGE, 1), Ok(Synced { count: 1, first: 6 }));
    assert_eq!(guard.replace(STORAGE, 0, 0, 1), Ok(()));
    entered(
        &guard,
        r#"{"replace":{"into":1,"out":0,"team":0}}"#,
        r#""done""#,
    );
}

#[test]
fn a_clog_holds_until_it_ends() {
    let mut guard = opened();
    assert_eq!(guard.clog(FAULT, Key::Zone, "z1", 3), Ok(None));
    entered(
        &guard,
        r#"{"clog":{"key":"zoneid","ticks":3,"value":"z1"}}"#,
        r#"{"ruled":null}"#,
    );
    let clogged = |guard: &Guard, process| guard.state(process).unwrap().clogged;
    assert!(clogged(&guard, 2) && clogged(&guard, 3) && !clogged(&guard, 4));
    assert_eq!(guard.unclog(FAULT, Key::Process, "p2"), Ok(None));
    entered(
        &guard,
        r#"{"unclog":{"key":"processid","value":"p2"}}"#,
        r#"{"ruled":null}"#,
    );
    assert!(!clogged(&guard, 2) && clogged(&guard, 3));
    let barred = guard.clog(LIMITED, Key::Zone, "z1", 3);
    assert_eq!(barred, Ok(Some(Rule::NoGrant { process: 2 })));
    let nobody = guard.unclog(FAULT, Key::Zone, "z9");
    assert_eq!(nobody, Ok(Some(Rule::NoTarget)));
    assert_eq!(
        guard.clog(9, Key::Zone, "z1", 3),
        refused(Refusal::Stranger)
    );
    assert_eq!(guard.clog(FAULT, Key::Zone, "-", 3), Err(Error::Name));
    assert_eq!(guard.unclog(FAULT, Key::Zone, ""), Err(Error::Name));
}

#[test]
fn grants_and_protections() {
    let mut guard = opened();
    let kinds = Kinds::REBOOT | Kinds::CLOG;
    assert!(kinds.contains(Kinds::CLOG) && !kinds.contains(Kinds::ALL));
    let zone = Scope::Where(Key::Zone, "z1");
    assert_eq!(guard.give(OPERATOR, LIMITED, kinds, zone), Ok(()));
    let scope = r#"{"key":"zoneid","value":"z1"}"#;
    let act = format!(r#"{{"give":{{"actor":2,"kinds":["Reboot","Clog"],"scope":{scope}}}}}"#);
    entered(&guard, &act, r#""done""#);
    let hard = guard.kill(
        LIMITED,
        Key::Process,
        "p2",
        Kind::RebootAndDelete,
        Kind::Reboot,
        0,
    );
    assert_eq!(hard.unwrap().struck, Some(Kind::Reboot));
    assert_eq!(
        guard.give(OPERATOR, LIMITED, Kinds::ALL, Scope::All),
        Ok(())
    );
    let act = r#"{"give":{"actor":2,"kinds":["RebootProcess","Reboot","RebootAndDelete","#;
    let act = format!(r#"{act}"KillInstantly","Clog"],"scope":"all"}}}}"#);
    entered(&guard, &act, r#""done""#);
    assert_eq!(guard.take(OPERATOR, LIMITED, 2), Ok(()));
    entered(&guard, r#"{"take":{"actor":2,"index":2}}"#, r#""done""#);
    assert_eq!(guard.take(OPERATOR, LIMITED, 2), refused(Refusal::NoSuch));
    let mut barred = Kinds::REBOOT_PROCESS;
    barred |= Kinds::KILL_INSTANTLY;
    assert_eq!(guard.protect(OPERATOR, 4, barred), Ok(()));
    let kinds = r#"{"kinds":["RebootProcess","KillInstantly"],"process":4}"#;
    entered(&guard, &format!(r#"{{"protect":{kinds}}}"#), r#""done""#);
    assert_eq!(guard.unprotect(OPERATOR, 4, barred), Ok(()));
    entered(&guard, &format!(r#"{{"unprotect":{kinds}}}"#), r#""done""#);
    assert_eq!(
        guard.protect(OPERATOR, 6, Kinds::NONE),
        refused(Refusal::NoProcess)
    );
    assert_eq!(
        guard.unprotect(STORAGE, 0, barred),
        refused(Refusal::WrongRole)
    );
    let nameless = Scope::Where(Key::Zone, "");
    assert_eq!(
        guard.give(OPERATOR, 0, Kinds::ALL, nameless),
        Err(Error::Name)
    );
    assert_eq!(
        guard.give(OPERATOR, 9, Kinds::ALL, Scope::All),
        refused(Refusal::NoActor)
    );
}

#[test]
fn what_is_refused() {
    let mut guard = opened();
    assert_eq!(
        guard.form(STORAGE, &[0, 1], 0),
        refused_by(Refusal::TeamShort, 0)
    );
    assert_eq!(
        guard.form(STORAGE, &[], 0),
        refused_by(Refusal::TeamShort, 0)
    );
    assert_eq!(guard.form(STORAGE, &[0, 9], 0), refused(Refusal::NoProcess));
    assert_eq!(guard.begin(STORAGE, 0, ""), refused(Refusal::NoTeam));
    assert_eq!(guard.form(STORAGE, &[0, 2], 0), Ok(0));
    assert_eq!(guard.begin(STORAGE, 0, [0; 257]), refused(Refusal::Payload));
    assert_eq!(guard.deliver(STORAGE, 0), refused(Refusal::NoMessage));
    assert_eq!(guard.lose(STORAGE, 0), refused(Refusal::NoMessage));
    assert_eq!(guard.resend(STORAGE, 0, 0), refused(Refusal::NoRecord));
    assert_eq!(guard.sync(STORAGE, 6), refused(Refusal::NoProcess));
    assert_eq!(guard.copy(STORAGE, 0, 0, 1), refused(Refusal::NoRecord));
    assert_eq!(guard.replace(STORAGE, 0, 1, 3), refused(Refusal::NotMember));
    assert_eq!(guard.tick(STORAGE, 1 << 41), refused(Refusal::ClockEnd));
    assert_eq!(guard.tick(FAULT, 1), refused(Refusal::WrongRole));
    assert_eq!(guard.journal_len(), 14);
}

#[test]
fn what_is_no_argument_leaves_no_entry() {
    let mut guard = opened();
    assert_eq!(guard.form(STORAGE, &[2, 0], 0), Err(Error::Argument));
    assert_eq!(guard.form(STORAGE, &[2, 2], 0), Err(Error::Argument));
    assert_eq!(guard.begin(STORAGE, 0, [0; 32_001]), Err(Error::Argument));
    assert_eq!(guard.journal_len(), 0);
    let mut full =
        Guard::open(CONFIG.replace("journal_limit = 20000", "journal_limit = 1")).unwrap();
    assert_eq!(full.tick(STORAGE, 1), Ok(1));
    assert_eq!(full.tick(STORAGE, 1), Err(Error::JournalFull));
    assert_eq!(full.form(STORAGE, &[0, 2], 0), Err(Error::JournalFull));
    assert_eq!(full.form(STORAGE, &[2, 0], 0), Err(Error::Argument));
}

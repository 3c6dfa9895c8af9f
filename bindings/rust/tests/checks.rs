//! Audits that are checked line by line.

use faultyard::{Check, ConfigFault, Error, Finding, Guard, Key, Kind, Part, AUDIT_HEADER};
use std::thread;

const CONFIG: &str = include_str!("cluster.toml");

fn begun() -> Check {
    Check::begin(CONFIG).unwrap()
}

/// A guard whose second kill is lessened to a reboot.
fn played() -> Guard {
    let mut guard = Guard::open(CONFIG).unwrap();
    for zone in ["z0", "z1"] {
        let verdict = guard.kill(1, Key::Zone, zone, Kind::KillInstantly, Kind::Reboot, 0);
        assert!(verdict.unwrap().struck.is_some());
    }
    guard
}

#[test]
fn the_audit_of_a_guard_is_legal() {
    let (guard, mut check) = (played(), begun());
    for line in guard.audit().unwrap().split_inclusive('\n') {
        assert_eq!(check.line(line), Ok(None));
    }
    let (count, first_bad) = (2, None);
    assert_eq!(check.finding(), Ok(Finding { count, first_bad }));
    let told = "Check { finding: Ok(Finding { count: 2, first_bad: None }), .. }";
    assert_eq!(format!("{check:?}"), told);
}

#[test]
fn a_reply_that_goes_too_far_is_the_first_bad_one() {
    let (guard, mut check) = (played(), begun());
    assert_eq!(check.line(AUDIT_HEADER), Ok(None));
    assert_eq!(check.line(guard.entry(0).unwrap()), Ok(None));
    let struck = r#""struck":"Reboot""#;
    let line = guard.entry(1).unwrap();
    assert!(line.contains(struck));
    let line = line.replace(struck, r#""struck":"KillInstantly""#);
    assert_eq!(check.line(line), Ok(Some(1)));
    let tick = r#"{"act":{"tick":{"ticks":1}},"at":2,"by":0,"reply":{"time":1}}"#;
    assert_eq!(check.line(format!("{tick}\n")), Ok(Some(1)));
    let (count, first_bad) = (3, Some(1));
    assert_eq!(check.finding(), Ok(Finding { count, first_bad }));
}

#[test]
fn a_check_may_be_moved_to_another_thread() {
    let (guard, mut check) = (played(), begun());
    let audit = guard.audit().unwrap();
    let (first, rest) = audit.split_at(AUDIT_HEADER.len());
    assert_eq!(check.line(first), Ok(None));
    let rest = rest.to_owned();
    let finding = thread::spawn(move || {
        for line in rest.split_inclusive('\n') {
            assert_eq!(check.line(line), Ok(None));
        }
        check.finding()
    });
    let (count, first_bad) = (2, None);
    assert_eq!(finding.join().unwrap(), Ok(Finding { count, first_bad }));
}

#[test]
fn a_faulty_line_counts_as_not_read() {
    let (guard, mut check) = (played(), begun());
    assert_eq!(check.finding(), Err(Error::NoHeader));
    for line in ["", "\n", "{\"audit\":2}", "{\"audit\":3}\n"] {
        assert_eq!(check.line(line), Err(Error::NoHeader));
    }
    assert_eq!(check.line(AUDIT_HEADER), Ok(None));
    let (first, second) = (guard.entry(0).unwrap(), guard.entry(1).unwrap());
    let both = format!("{first}{second}");
    for line in ["", "\n", AUDIT_HEADER, first.trim_end(), &second, &both] {
        assert_eq!(check.line(line), Err(Error::LineSyntax), "{line}");
    }
    assert_eq!(check.line(" ".repeat(65_537)), Err(Error::LineTooLong));
    assert_eq!(check.finding(), Ok(Finding::default()));
    assert_eq!(check.line(first), Ok(None));
}

#[test]
fn too_many_bytes_are_refused() {
    let mut check = begun();
    check.line(AUDIT_HEADER).unwrap();
    let front = format!(
        "{{\"act\":{{\"begin\":{{\"payload\":\"{}",
        "a".repeat(65_000)
    );
    let mut bytes = AUDIT_HEADER.len();
    for at in 0.. {
        let back =
            format!("\",\"team\":0}}}},\"at\":{at},\"by\":9,\"reply\":{{\"no\":[\"NoTeam\"]}}}}\n");
        bytes += front.len() + back.len();
        let answer = check.line(format!("{front}{back}"));
        if bytes > 268_435_456 {
            assert_eq!(answer, Err(Error::AuditTooLong));
            break;
        }
        assert_eq!(answer, Ok(Some(0)));
    }
}

#[test]
fn a_cluster_file_is_refused_by_its_fault() {
    let (part, place) = (Part::Process, 1);
    let fault = ConfigFault::Name { part, place };
    let config = CONFIG.replace("\"p1\"", "\"p0\"");
    assert_eq!(Check::begin(config).err(), Some(Error::Config(fault)));
}

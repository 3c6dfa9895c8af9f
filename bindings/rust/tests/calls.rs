//! Each call, and each error that a test can meet.

use faultyard::{
    Borne, ConfigFault, Error, Guard, Key, Kind, Kinds, Part, ProcessSet, Refusal, Rule, Sight,
    State, Verdict, Version, AUDIT_HEADER,
};

const CONFIG: &str = include_str!("cluster.toml");
/// A team of p0 and p2 has a record acknowledged.
const ACKED: [&str; 8] = [
    r#"{"by":0,"act":{"form":{"members":[0,2],"policy":0}}}"#,
    r#"{"by":0,"act":{"begin":{"payload":"00","team":0}}}"#,
    r#"{"by":0,"act":{"deliver":{"message":0}}}"#,
    r#"{"by":0,"act":{"deliver":{"message":1}}}"#,
    r#"{"by":0,"act":{"sync":{"process":0}}}"#,
    r#"{"by":0,"act":{"sync":{"process":2}}}"#,
    r#"{"by":0,"act":{"deliver":{"message":2}}}"#,
    r#"{"by":0,"act":{"deliver":{"message":3}}}"#,
];

fn opened() -> Guard {
    Guard::open(CONFIG).unwrap()
}

/// An order whose floor is its kind.
fn strictly(guard: &mut Guard, key: Key, value: &str, kind: Kind) -> Verdict {
    guard.kill(1, key, value, kind, kind, 0).unwrap()
}

fn refused<T>(refusal: Refusal) -> Result<T, Error> {
    Err(Error::Refused(refusal))
}

/// Makes acts by their lines, none of which is refused.
fn make(guard: &mut Guard, lines: &[&str]) {
    for line in lines {
        let entry = guard.act(line).unwrap();
        assert!(!entry.contains(r#""reply":{"no":"#), "{entry}");
    }
}

#[test]
fn the_second_zone_is_only_rebooted() {
    let mut guard = opened();
    let mut order = |zone| {
        let verdict = guard.kill(1, Key::Zone, zone, Kind::KillInstantly, Kind::Reboot, 0);
        verdict.unwrap()
    };
    let first = order("z0");
    assert_eq!(
        (first.struck, first.rule),
        (Some(Kind::KillInstantly), None)
    );
    let second = order("z1");
    assert_eq!(second.struck, Some(Kind::Reboot));
    assert_eq!(second.rule, Some(Rule::TooManyDestroyed { policy: 0 }));
}

#[test]
fn nothing_strikes_below_the_floor() {
    let mut guard = opened();
    assert!(strictly(&mut guard, Key::Zone, "z0", Kind::KillInstantly)
        .struck
        .is_some());
    let verdict = strictly(&mut guard, Key::Zone, "z1", Kind::KillInstantly);
    assert_eq!(verdict.struck, None);
}

#[test]
fn each_rule_and_what_it_names() {
    let mut guard = opened();
    let none = strictly(&mut guard, Key::Process, "nobody", Kind::Reboot);
    assert_eq!(none.rule, Some(Rule::NoTarget));
    let stranger = guard
        .kill(2, Key::Zone, "z1", Kind::Reboot, Kind::Reboot, 0)
        .unwrap();
    assert_eq!(stranger.rule, Some(Rule::NoGrant { process: 2 }));
    make(
        &mut guard,
        &[r#"{"by":3,"act":{"protect":{"kinds":["Reboot"],"process":3}}}"#],
    );
    for (key, value) in [(Key::Machine, "m3"), (Key::DataHall, "h0")] {
        let verdict = strictly(&mut guard, key, value, Kind::Reboot);
        assert_eq!(verdict.rule, Some(Rule::Protected { process: 3 }));
    }
    let all = strictly(&mut guard, Key::DataCenter, "d0", Kind::KillInstantly);
    assert_eq!(all.rule, Some(Rule::TooManyDestroyed { policy: 0 }));
    assert_eq!(
        strictly(&mut guard, Key::DataCenter, "d1", Kind::KillInstantly).rule,
        None
    );
}

/// Of three zones two have to be left, and only all three would be too many destroyed.
#[test]
fn too_few_may_be_left() {
    let three = CONFIG.replace("\"Across(2,zoneid,One())\"", "\"Across(3,zoneid,One())\"");
    let mut guard = Guard::open(three).unwrap();
    let order = |guard: &mut Guard, kind| guard.kill(1, Key::Zone, "z0", kind, kind, 0).unwrap();
    let gone = order(&mut guard, Kind::KillInstantly);
    assert_eq!(
        (gone.struck, gone.rule),
        (None, Some(Rule::TooFewLeft { policy: 0 }))
    );
    assert_eq!(order(&mut guard, Kind::RebootAndDelete).rule, None);
}

#[test]
fn what_is_no_order_leaves_no_entry() {
    let mut guard = opened();
    let long = "a".repeat(33);
    for value in ["", "-x", "a b", long.as_str(), "z\0", "ä"] {
        let answer = guard.kill(1, Key::Zone, value, Kind::Reboot, Kind::Reboot, 0);
        assert_eq!(answer, Err(Error::Name), "{value:?}");
    }
    let above = guard.kill(1, Key::Zone, "z0", Kind::Reboot, Kind::KillInstantly, 0);
    assert_eq!(above, Err(Error::Floor));
    assert_eq!(guard.journal_len(), 0);
    let stranger = guard.kill(9, Key::Zone, "z0", Kind::Reboot, Kind::Reboot, 0);
    assert_eq!(stranger, refused(Refusal::Stranger));
    assert_eq!(guard.journal_len(), 1);
}

#[test]
fn up_and_heal_are_refused() {
    let mut guard = opened();
    assert_eq!(guard.up(9, 0), refused(Refusal::Stranger));
    assert_eq!(guard.up(1, 0), refused(Refusal::WrongRole));
    assert_eq!(guard.up(0, 6), refused(Refusal::NoProcess));
    assert_eq!(guard.up(0, 0), refused(Refusal::IsUp));
    assert_eq!(guard.heal(0, 0), refused(Refusal::NotDestroyed));
    assert!(
        strictly(&mut guard, Key::Process, "p0", Kind::RebootAndDelete)
            .struck
            .is_some()
    );
    assert!(guard.is_destroyed(0));
    assert_eq!(guard.heal(0, 0), refused(Refusal::NotUp));
    assert_eq!(guard.up(0, 0), Ok(()));
    assert_eq!(guard.heal(0, 0), Ok(()));
    assert!(!guard.is_destroyed(0));
    assert!(
        strictly(&mut guard, Key::Process, "p0", Kind::KillInstantly)
            .struck
            .is_some()
    );
    assert_eq!(guard.up(0, 0), refused(Refusal::Gone));
}

#[test]
fn a_process_without_its_record_is_not_healed() {
    let mut guard = opened();
    make(&mut guard, &ACKED);
    assert!(
        strictly(&mut guard, Key::Process, "p0", Kind::RebootAndDelete)
            .struck
            .is_some()
    );
    assert_eq!(guard.up(0, 0), Ok(()));
    assert_eq!(guard.heal(0, 0), refused(Refusal::StillNeeds));
    let needed = |guard: &Guard| [0, 1, 2, 6].map(|it| guard.needed(it));
    assert_eq!(needed(&guard), [Some(0), None, None, None]);
    let copied = [
        r#"{"by":0,"act":{"copy":{"from":2,"record":0,"to":0}}}"#,
        r#"{"by":0,"act":{"deliver":{"message":4}}}"#,
        r#"{"by":0,"act":{"sync":{"process":0}}}"#,
    ];
    make(&mut guard, &copied);
    assert_eq!(needed(&guard), [None; 4]);
    assert_eq!(guard.heal(0, 0), Ok(()));
}

#[test]
fn who_is_left_and_who_is_destroyed() {
    let mut guard = opened();
    assert!(guard.left().iter().eq(0..6));
    assert!(
        strictly(&mut guard, Key::Process, "p1", Kind::KillInstantly)
            .struck
            .is_some()
    );
    assert!(
        strictly(&mut guard, Key::Process, "p0", Kind::RebootAndDelete)
            .struck
            .is_some()
    );
    let left = guard.left();
    assert_eq!(format!("{left:?}"), "{0, 2, 3, 4, 5}");
    assert_eq!((left.len(), left.is_empty()), (5, false));
    assert!(left.contains(0) && !left.contains(1) && !left.contains(u32::MAX));
    let destroyed: Vec<u32> = (0..2000).filter(|it| guard.is_destroyed(*it)).collect();
    assert_eq!(destroyed, [0, 1]);
}

fn numbers(set: ProcessSet) -> Vec<u32> {
    set.iter().collect()
}

#[test]
fn whom_a_kill_is_about() {
    let mut guard = opened();
    let targets = |guard: &Guard, key, value| guard.targets(key, value).map(numbers);
    let places: [(Key, &str, &[u32]); 7] = [
        (Key::Process, "p3", &[3]),
        (Key::Machine, "m4", &[4, 5]),
        (Key::Zone, "z0", &[0, 1]),
        (Key::DataHall, "h0", &[3]),
        (Key::DataCenter, "d0", &[0, 1, 2, 3, 4]),
        (Key::DataCenter, "d1", &[5]),
        (Key::Zone, "p0", &[]),
    ];
    for (key, value, wanted) in places {
        assert_eq!(
            targets(&guard, key, value).unwrap(),
            wanted,
            "{key} {value}"
        );
    }
    for value in ["", "-z", "z 0", "z0\0"] {
        assert_eq!(targets(&guard, Key::Zone, value), Err(Error::Name));
    }
    let gone = strictly(&mut guard, Key::Process, "p1", Kind::KillInstantly);
    let emptied = strictly(&mut guard, Key::Process, "p0", Kind::RebootAndDelete);
    assert_eq!((gone.rule, emptied.rule), (None, None));
    assert_eq!(targets(&guard, Key::Zone, "z0").unwrap(), [0]);
    assert_eq!(targets(&guard, Key::Process, "p1").unwrap(), []);
    assert_eq!(numbers(guard.destroyed()), [0, 1]);
    assert_eq!(numbers(guard.gone()), [1]);
    assert_eq!((guard.up(0, 0), guard.heal(0, 0)), (Ok(()), Ok(())));
    assert_eq!(numbers(guard.destroyed()), [1]);
    assert_eq!(numbers(guard.gone()), [1]);
}

/// Each order is judged, then made; the journal has the kills alone.
#[test]
fn a_verdict_before_the_kill() {
    let mut guard = opened();
    let kinds = [Kind::KillInstantly, Kind::RebootAndDelete, Kind::Reboot];
    let mut entries = 0;
    for zone in ["z0", "z1", "z2", "-", "z9"] {
        for (kind, floor) in (0..9).map(|it| (kinds[it / 3], kinds[it % 3])) {
            let judged = guard.judge(1, Key::Zone, zone, kind, floor);
            assert_eq!(guard.journal_len(), entries);
            assert_eq!(judged, guard.kill(1, Key::Zone, zone, kind, floor, 0));
            entries += usize::from(judged.is_ok());
        }
    }
    assert!(entries > 0);
    let stranger = guard.judge(9, Key::Zone, "z0", Kind::Reboot, Kind::Reboot);
    assert_eq!(stranger, refused(Refusal::Stranger));
}

/// By a process's number as by its name: the same verdicts, and the same audit.
#[test]
fn by_number_as_by_name() {
    let (mut named, mut numbered) = (opened(), opened());
    for process in 0..6 {
        for kind in [Kind::KillInstantly, Kind::RebootAndDelete, Kind::Reboot] {
            let name = format!("p{process}");
            let verdict = named.kill(1, Key::Process, &name, kind, Kind::Reboot, 5);
            let judged = numbered.judge_process(1, process, kind, Kind::Reboot);
            assert_eq!(judged, verdict);
            assert_eq!(
                numbered.kill_process(1, process, kind, Kind::Reboot, 5),
                verdict
            );
        }
    }
    let entries = named.journal_len();
    assert_eq!(numbered.journal_len(), entries);
    assert!(entries > 0);
    let audit = named.audit();
    assert_eq!(numbered.audit(), audit);
    let (kind, floor) = (Kind::Reboot, Kind::KillInstantly);
    assert_eq!(
        numbered.judge_process(1, 6, kind, kind),
        Err(Error::Argument)
    );
    assert_eq!(
        numbered.kill_process(1, 6, kind, kind, 0),
        Err(Error::Argument)
    );
    assert_eq!(numbered.judge_process(1, 0, kind, floor), Err(Error::Floor));
    assert_eq!(
        numbered.kill_process(1, 0, kind, floor, 0),
        Err(Error::Floor)
    );
    let stranger = numbered.judge_process(9, 0, kind, kind);
    assert_eq!(stranger, refused(Refusal::Stranger));
    assert_eq!(numbered.journal_len(), entries);
}

/// Each process has the kind of its own judgement.
#[test]
fn which_may_be_killed() {
    let mut guard = opened();
    let (hard, mild) = (Some(Kind::KillInstantly), Some(Kind::Reboot));
    let kinds = Kinds::KILL_INSTANTLY | Kinds::REBOOT;
    guard.protect(3, 5, kinds).unwrap();
    let emptied = Some(Kind::RebootAndDelete);
    let wanted = vec![hard, hard, hard, hard, hard, emptied];
    assert_eq!(guard.killable(1), Ok(wanted));
    assert_eq!(guard.killable(0), Ok(vec![None; 6]));
    let (kind, floor) = (Kind::KillInstantly, Kind::RebootProcess);
    let killed = guard.kill_process(1, 0, kind, floor, 0).unwrap();
    assert_eq!(killed.struck, hard);
    let restarted = Some(Kind::RebootProcess);
    let wanted = vec![None, hard, mild, mild, mild, restarted];
    assert_eq!(guard.killable(1), Ok(wanted));
    let found = guard.killable(2).unwrap();
    for (process, struck) in (0..).zip(found) {
        let judged = guard.judge_process(2, process, kind, floor).unwrap();
        assert_eq!(judged.struck, struck);
    }
    assert_eq!(guard.killable(9), Err(Error::Refused(Refusal::Stranger)));
    assert_eq!(guard.journal_len(), 2);
}

/// Any one of six may go, and none once a zone has gone.
#[test]
fn how_much_may_be_lost() {
    let mut guard = opened();
    let exactly = |emptied, gone| {
        Ok(Borne {
            emptied,
            gone,
            emptied_exact: true,
            gone_exact: true,
        })
    };
    assert_eq!(guard.bears(), exactly(1, 1));
    let lost = strictly(&mut guard, Key::Zone, "z1", Kind::KillInstantly);
    assert_eq!(lost.struck, Some(Kind::KillInstantly));
    assert_eq!(guard.bears(), exactly(0, 0));
    assert_eq!(guard.journal_len(), 1);
}

#[test]
fn who_is_up_and_in_which_state() {
    let mut guard = opened();
    let up = State {
        up: true,
        clogged: false,
        destroyed: false,
        gone: false,
    };
    let states = |guard: &Guard| (0..6).map(|it| guard.state(it)).collect::<Vec<_>>();
    assert_eq!(states(&guard), [Some(up); 6]);
    assert_eq!(numbers(guard.up_set()), [0, 1, 2, 3, 4, 5]);
    let gone = strictly(&mut guard, Key::Process, "p1", Kind::KillInstantly);
    let emptied = strictly(&mut guard, Key::Process, "p0", Kind::RebootAndDelete);
    assert_eq!((gone.rule, emptied.rule), (None, None));
    make(
        &mut guard,
        &[r#"{"by":1,"act":{"clog":{"key":"processid","ticks":3,"value":"p2"}}}"#],
    );
    let mut wanted = [Some(up); 6];
    wanted[0] = Some(State {
        up: false,
        destroyed: true,
        ..up
    });
    wanted[1] = Some(State {
        up: false,
        destroyed: true,
        gone: true,
        ..up
    });
    wanted[2] = Some(State {
        clogged: true,
        ..up
    });
    assert_eq!(states(&guard), wanted);
    assert_eq!(numbers(guard.up_set()), [2, 3, 4, 5]);
    assert_eq!((guard.state(6), guard.state(u32::MAX)), (None, None));
}

#[test]
fn a_guard_that_is_reset_does_the_same_again() {
    let mut guard = opened();
    let mut audits = Vec::new();
    for _ in 0..2 {
        make(&mut guard, &ACKED);
        let killed = strictly(&mut guard, Key::Zone, "z0", Kind::KillInstantly);
        assert_eq!(killed.rule, None);
        audits.push(guard.audit().unwrap());
        assert_eq!(guard.reset(), Ok(()));
        assert_eq!(guard.audit().unwrap(), AUDIT_HEADER);
        assert_eq!(guard.left().len(), 6);
    }
    assert_eq!(audits[0], audits[1]);
}

#[test]
fn a_copy_has_the_journal_and_goes_its_own_way() {
    let mut guard = opened();
    make(&mut guard, &ACKED);
    let killed = strictly(&mut guard, Key::Zone, "z0", Kind::KillInstantly);
    assert_eq!(killed.rule, None);
    let before = guard.audit().unwrap();
    let mut other = guard.try_copy().unwrap();
    assert_eq!(other.audit().unwrap(), before);
    assert_eq!(
        (other.keeper(0), numbers(other.left())),
        (Some(2), vec![2, 3, 4, 5])
    );
    let rebooted = strictly(&mut other, Key::Process, "p4", Kind::Reboot);
    assert_eq!(rebooted.rule, None);
    assert_eq!(numbers(other.up_set()), [2, 3, 5]);
    assert_eq!(numbers(guard.up_set()), [2, 3, 4, 5]);
    assert_eq!(guard.audit().unwrap(), before);
    let ahead = other.audit().unwrap();
    guard.reset().unwrap();
    drop(guard);
    assert_eq!(other.audit().unwrap(), ahead);
}

#[test]
fn a_guard_goes_on_where_an_audit_ends() {
    let mut guard = opened();
    make(&mut guard, &ACKED);
    let before = guard.audit().unwrap();
    let mut other = Guard::open_after(CONFIG, &before).unwrap();
    assert_eq!(other.audit().unwrap(), before);
    let verdict = strictly(&mut guard, Key::Zone, "z0", Kind::KillInstantly);
    assert_eq!(
        strictly(&mut other, Key::Zone, "z0", Kind::KillInstantly),
        verdict
    );
    assert_eq!(other.audit().unwrap(), guard.audit().unwrap());
    let tick = |at: usize, now| {
        format!(
            "{{\"act\":{{\"tick\":{{\"ticks\":1}}}},\"at\":{at},\"by\":0,\
             \"reply\":{{\"time\":{now}}}}}\n"
        )
    };
    let after = |audit: &str| Guard::open_after(CONFIG, audit).err();
    let bad = format!("{before}{}", tick(ACKED.len(), 9));
    let place = u32::try_from(ACKED.len()).unwrap();
    assert_eq!(after(&bad), Some(Error::Refuted(place)));
    assert_eq!(after(before.trim_end()), Some(Error::LineSyntax));
    assert_eq!(after("{\"audit\":1}\n"), Some(Error::NoHeader));
    assert_eq!(after(""), Some(Error::NoHeader));
    let fault = Guard::open_after("", &before).err();
    assert!(matches!(fault, Some(Error::Config(_))));
}

#[test]
fn processes_by_their_names() {
    let guard = opened();
    assert_eq!(guard.process_count(), 6);
    for number in 0..6 {
        assert_eq!(guard.process(&format!("p{number}")), Some(number));
    }
    for name in ["p6", "z0", "P0", "p", "", "p0\0", "p0 "] {
        assert_eq!(guard.process(name), None, "{name:?}");
    }
}

#[test]
fn who_keeps_a_record() {
    let mut guard = opened();
    let (last, others) = ACKED.split_last().unwrap();
    make(&mut guard, others);
    assert_eq!((guard.is_acked(0), guard.keeper(0)), (false, None));
    make(&mut guard, &[last]);
    assert_eq!((guard.is_acked(0), guard.keeper(0)), (true, Some(0)));
    let emptied = strictly(&mut guard, Key::Process, "p0", Kind::RebootAndDelete);
    assert_eq!(emptied.rule, None);
    assert_eq!((guard.is_acked(0), guard.keeper(0)), (true, Some(2)));
    for record in [1, u32::MAX] {
        assert_eq!(
            (guard.is_acked(record), guard.keeper(record)),
            (false, None)
        );
    }
}

#[test]
fn what_there_is_to_do_next() {
    let mut guard = opened();
    let mut wanted = Sight {
        now: 0,
        deliverable: None,
        unsynced: None,
        sleeping: None,
    };
    assert_eq!(guard.sight(), wanted);
    make(&mut guard, &[r#"{"by":0,"act":{"tick":{"ticks":5}}}"#]);
    wanted.now = 5;
    // Messages 0 and 1 are sent, to p0 and to p2.
    make(&mut guard, &ACKED[..2]);
    wanted.deliverable = Some(0);
    assert_eq!(guard.sight(), wanted);
    make(&mut guard, &ACKED[2..4]);
    wanted.deliverable = None;
    wanted.unsynced = Some(0);
    assert_eq!(guard.sight(), wanted);
    make(&mut guard, &ACKED[4..5]);
    wanted.deliverable = Some(2);
    wanted.unsynced = Some(2);
    assert_eq!(guard.sight(), wanted);
    let ended = strictly(&mut guard, Key::Process, "p5", Kind::RebootProcess);
    assert_eq!(ended.rule, None);
    wanted.sleeping = Some(5);
    assert_eq!(guard.sight(), wanted);
    let gone = strictly(&mut guard, Key::Process, "p5", Kind::KillInstantly);
    assert_eq!(gone.rule, None);
    wanted.sleeping = None;
    assert_eq!(guard.sight(), wanted);
}

#[test]
fn an_act_is_answered_with_its_line() {
    let mut guard = opened();
    let wanted = r#"{"act":{"up":{"process":0}},"at":0,"by":0,"reply":{"no":["IsUp"]}}"#;
    let wanted = format!("{wanted}\n");
    assert_eq!(
        guard
            .act(r#" {"act":{"up":{"process":0}},"by":0} "#)
            .unwrap(),
        wanted
    );
    assert_eq!(guard.entry(0).unwrap(), wanted);
    assert_eq!(guard.entry(1), Err(Error::NoEntry));
    assert_eq!(guard.entry(usize::MAX), Err(Error::NoEntry));
    for line in ["", "{}", "{\"by\":0}\n{\"by\":0}", "up 0"] {
        assert_eq!(guard.act(line), Err(Error::LineSyntax), "{line:?}");
    }
    assert_eq!(guard.act(&" ".repeat(65_537)), Err(Error::LineTooLong));
    let order = r#""key":"zoneid","value":"z0","kind":"Reboot","floor":"KillInstantly","tear":0"#;
    assert_eq!(
        guard.act(&format!(r#"{{"by":1,"act":{{"kill":{{{order}}}}}}}"#)),
        Err(Error::Floor)
    );
    assert_eq!(guard.journal_len(), 1);
}

#[test]
fn a_question_is_told_and_changes_nothing() {
    let mut guard = opened();
    make(&mut guard, &ACKED);
    assert_eq!(
        guard.ask(r#"{"ask":{"record":{"record":0}}}"#).unwrap(),
        "{\"told\":{\"record\":{\"acked\":true,\"keeper\":0,\"synced\":[0,2],\"team\":0}}}\n"
    );
    let longer = guard.ask(r#"{"ask":{"cluster":{}}}"#).unwrap();
    assert!(longer.len() > 512 && longer.ends_with("\"z2\"}]}}}\n"));
    for line in ["", "{}", ACKED[0]] {
        assert_eq!(guard.ask(line), Err(Error::LineSyntax), "{line:?}");
    }
    assert_eq!(guard.ask(&" ".repeat(65_537)), Err(Error::LineTooLong));
    assert_eq!(guard.journal_len(), ACKED.len());
}

#[test]
fn a_long_entry_is_read_whole() {
    let mut guard = opened();
    let payload = "ab".repeat(20_000);
    let begin = format!(r#"{{"begin":{{"payload":"{payload}","team":0}}}}"#);
    let wanted =
        format!("{{\"act\":{begin},\"at\":0,\"by\":0,\"reply\":{{\"no\":[\"NoTeam\"]}}}}\n");
    assert!(guard.act(&format!(r#"{{"by":0,"act":{begin}}}"#)).unwrap() == wanted);
    assert!(guard.entry(0).unwrap() == wanted);
}

#[test]
fn a_full_journal_takes_nothing() {
    let mut guard = Guard::open(CONFIG.replace("20000", "2")).unwrap();
    assert_eq!(guard.up(0, 0), refused(Refusal::IsUp));
    assert_eq!(guard.up(0, 0), refused(Refusal::IsUp));
    assert_eq!(guard.up(0, 0), Err(Error::JournalFull));
    assert_eq!(guard.heal(0, 0), Err(Error::JournalFull));
    let kill = guard.kill(1, Key::Zone, "z0", Kind::KillInstantly, Kind::Reboot, 0);
    assert_eq!(kill, Err(Error::JournalFull));
    let act = guard.act(r#"{"by":0,"act":{"up":{"process":0}}}"#);
    assert_eq!(act, Err(Error::JournalFull));
    assert_eq!((guard.left().len(), guard.journal_len()), (6, 2));
}

/// The fault of a text that is no cluster file, its part and its place, and what its error says.
fn fault(text: impl AsRef<[u8]>) -> (ConfigFault, Option<Part>, Option<u32>, String) {
    let error = Guard::open(text).unwrap_err();
    match error {
        Error::Config(fault) => (fault, fault.part(), fault.place(), error.to_string()),
        other => panic!("{other:?}"),
    }
}

fn said(text: &str) -> String {
    text.to_owned()
}

#[test]
fn a_cluster_file_is_refused_by_its_fault() {
    let long = said("config: TooLong: it has more than 1,048,576 bytes");
    let (its, text) = (ConfigFault::TooLong, "#".repeat(1_048_577));
    assert_eq!(fault(text), (its, None, None, long));
    for text in [&b"process = ["[..], &[0xff, 0xfe]] {
        let toml = said("config: Toml: it is no TOML document in UTF-8");
        assert_eq!(fault(text), (ConfigFault::Toml, None, None, toml));
    }
    let changed = |from: &str, to: &str| fault(CONFIG.replace(from, to));
    let (its, part) = (ConfigFault::Policy { place: 1 }, Some(Part::Policies));
    let policy = said("config: Policy 1: it is no policy");
    let found = changed("\"Across(2", "\"One()\", \"Acrosss(2");
    assert_eq!(found, (its, part, Some(1), policy));
    let its = ConfigFault::Unmet { place: 0 };
    let unmet = said("config: PolicyUnmet 0: all processes together don't satisfy it");
    assert_eq!(changed("Across(2", "Across(4"), (its, part, Some(0), unmet));
}

#[test]
fn a_cluster_file_is_refused_in_each_part() {
    let changed = |from: &str, to: &str| fault(CONFIG.replace(from, to));
    let fields = [
        (Part::JournalLimit, fault("")),
        (Part::Policies, changed("[\"Across", "[1, \"Across")),
        (Part::Process, changed("processid = \"p1\", ", "")),
        (Part::Actor, changed("\"operator\"", "\"reader\"")),
        (Part::Protect, fault(format!("protect = 1\n{CONFIG}"))),
        (Part::Unknown, fault(format!("more = 1\n{CONFIG}"))),
    ];
    for (part, found) in fields {
        let says = format!("config: Field {part}: a key or a word is wrong or missing");
        let its = ConfigFault::Field { part };
        assert_eq!(found, (its, Some(part), None, says));
    }
    let limits = [
        (Part::JournalLimit, changed("20000", "0")),
        (
            Part::Policies,
            changed("[\"Across(2,zoneid,One())\"]", "[]"),
        ),
    ];
    for (part, found) in limits {
        let says = format!("config: Limit {part}: a number or a length is outside its range");
        let its = ConfigFault::Limit { part };
        assert_eq!(found, (its, Some(part), None, says));
    }
    let twice = r#"protect = [{process = "p0", kinds = []}, {process = "p0", kinds = []}]"#;
    let names = [
        (Part::Process, 3, changed("\"h0\"", "\"-h\"")),
        (Part::Actor, 2, changed("value = \"z0\"", "value = \"\"")),
        (Part::Protect, 1, fault(format!("{twice}\n{CONFIG}"))),
    ];
    for (part, place, found) in names {
        let says = "a text is no name, or names what is taken or isn't there";
        let says = format!("config: Name {part} {place}: {says}");
        let its = ConfigFault::Name { part, place };
        assert_eq!(found, (its, Some(part), Some(place), says));
    }
}

#[test]
fn the_library_is_of_the_version_of_the_crate() {
    let Version {
        major,
        minor,
        patch,
    } = faultyard::version();
    let told = faultyard::version().to_string();
    assert_eq!(told, format!("{major}.{minor}.{patch}"));
    assert_eq!(told, env!("CARGO_PKG_VERSION"));
}

#[test]
fn the_journal_is_the_audit_without_its_header() {
    let mut guard = opened();
    for at in 0..3000_u32 {
        // Refused or not, each leaves an entry.
        let _ = guard.up(0, at % 7);
    }
    let audit = guard.audit().unwrap();
    let lines: String = guard.journal().map(Result::unwrap).collect();
    assert!(audit == format!("{AUDIT_HEADER}{lines}"));
    let mut written = Vec::new();
    guard.write_audit(&mut written).unwrap();
    assert!(written == audit.as_bytes());
    assert_eq!(guard.journal().len(), 3000);
    assert_eq!(guard.journal().next_back().unwrap(), guard.entry(2999));
    let mut short = [0; 100];
    let full = guard.write_audit(&mut short[..]).unwrap_err();
    assert_eq!(full.kind(), std::io::ErrorKind::WriteZero);
}

#[test]
fn a_guard_is_seen_by_the_length_of_its_journal() {
    let mut guard = opened();
    assert!(guard.up(0, 0).is_err());
    assert!(format!("{guard:?}").contains("Guard { journal_len: 1, .."));
}

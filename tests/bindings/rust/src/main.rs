//! Plays acts on guards, for tests/bindings/python/test_rust.py, and writes an audit.
//!
//!     play alone CONFIG < ACTS     on a guard in one thread
//!     play moved CONFIG < ACTS     on a guard, each hundred acts in another thread
//!     play apart CONFIG < ACTS     on eight guards in eight threads at once: all audits are one
//!     play shared CONFIG < ACTS    on one guard behind a mutex, by eight threads in any order
//!     play refused CONFIG ..       tells on a line why each cluster file is refused
//!     play asked < LINES           makes acts and asks questions, and writes each answer; a line
//!                                  with the path of a cluster file opens a guard
//!
//! A line of ACTS is a line of a script, or the name of an act with its numbers behind tabs, as
//! tests/bindings/python/played.py says. Each answer is held against its entry in the journal.

use faultyard::{Delivered, Error, Guard, Key, Kind, Kinds, Rule, Scope, Verdict};
use std::io::Read;
use std::sync::Mutex;
use std::{env, fs, io, thread};

const THREADS: usize = 8;

struct Order {
    key: Key,
    value: String,
    kind: Kind,
    floor: Kind,
    tear: u64,
}

impl Order {
    fn give(&self, guard: &mut Guard, actor: u32) -> Result<Verdict, Error> {
        let Order {
            key,
            value,
            kind,
            floor,
            tear,
        } = self;
        guard.kill(actor, *key, value, *kind, *floor, *tear)
    }
}

enum Asked {
    Kill(u32, Order),
    Up(u32, u32),
    Heal(u32, u32),
    /// Any other act by numbers: its words.
    Numbered(Vec<String>),
    Line(String),
}

fn asked(line: &str) -> Asked {
    let words: Vec<&str> = line.split('\t').collect();
    let number = |at: usize| words[at].parse().expect("a number");
    let kind = |at: usize| Kind::from_word(words[at]).expect("a kind");
    match words[0] {
        "kill" => {
            let order = Order {
                key: Key::from_word(words[2]).expect("a key"),
                value: words[3].to_owned(),
                kind: kind(4),
                floor: kind(5),
                tear: words[6].parse().expect("64 bits"),
            };
            Asked::Kill(number(1), order)
        }
        "up" => Asked::Up(number(1), number(2)),
        "heal" => Asked::Heal(number(1), number(2)),
        _ if words.len() > 1 => Asked::Numbered(words.into_iter().map(str::to_owned).collect()),
        _ => Asked::Line(line.to_owned()),
    }
}

/// The kinds of these bits.
fn kinds(word: &str) -> Kinds {
    let bits: u32 = word.parse().expect("bits");
    let each = [
        Kinds::REBOOT_PROCESS,
        Kinds::REBOOT,
        Kinds::REBOOT_AND_DELETE,
        Kinds::KILL_INSTANTLY,
        Kinds::CLOG,
    ];
    (0..)
        .zip(each)
        .filter(|(at, _)| bits >> at & 1 == 1)
        .fold(Kinds::NONE, |set, (_, kind)| set | kind)
}

/// The bytes of two digits each.
fn bytes(word: &str) -> Vec<u8> {
    let byte = |at| u8::from_str_radix(&word[at..at + 2], 16).expect("two digits");
    (0..word.len()).step_by(2).map(byte).collect()
}

/// Makes an act by numbers, and answers what an entry has as its reply.
fn numbered(guard: &mut Guard, words: &[String]) -> Result<String, Error> {
    let word = |at: usize| words[at].as_str();
    let number = |at: usize| word(at).parse::<u32>().expect("a number");
    let large = |at: usize| word(at).parse::<u64>().expect("64 bits");
    let key = |at: usize| Key::from_word(word(at)).expect("a key");
    let by = number(1);
    let done = |()| "\"done\"".to_owned();
    match word(0) {
        "clog" => guard.clog(by, key(2), word(3), large(4)).map(ruled),
        "unclog" => guard.unclog(by, key(2), word(3)).map(ruled),
        "form" => {
            let members = word(2).split(',').filter(|it| !it.is_empty());
            let members: Vec<u32> = members.map(|it| it.parse().expect("a number")).collect();
            let team = guard.form(by, &members, number(3))?;
            Ok(format!("{{\"formed\":{team}}}"))
        }
        "begin" => {
            let begun = guard.begin(by, number(2), bytes(word(3)))?;
            let (record, first) = (begun.record, begun.first);
            Ok(format!(
                "{{\"begun\":{{\"first\":{first},\"record\":{record}}}}}"
            ))
        }
        "deliver" => Ok(match guard.deliver(by, large(2))? {
            Delivered::Stored => "\"stored\"".to_owned(),
            Delivered::Marked { acked } => format!("{{\"marked\":{acked}}}"),
        }),
        "lose" => guard.lose(by, large(2)).map(done),
        "resend" => guard.resend(by, number(2), number(3)).map(sent),
        "sync" => {
            let synced = guard.sync(by, number(2))?;
            let (count, first) = (synced.count, synced.first);
            Ok(format!(
                "{{\"synced\":{{\"count\":{count},\"first\":{first}}}}}"
            ))
        }
        "tick" => {
            let now = guard.tick(by, large(2))?;
            Ok(format!("{{\"time\":{now}}}"))
        }
        "give" => {
            let scope = match word(4) {
                "-" => Scope::All,
                _ => Scope::Where(key(4), word(5)),
            };
            guard.give(by, number(2), kinds(word(3)), scope).map(done)
        }
        "take" => guard.take(by, number(2), number(3)).map(done),
        "protect" => guard.protect(by, number(2), kinds(word(3))).map(done),
        "unprotect" => guard.unprotect(by, number(2), kinds(word(3))).map(done),
        "copy" => guard.copy(by, number(2), number(3), number(4)).map(sent),
        "replace" => guard.replace(by, number(2), number(3), number(4)).map(done),
        other => panic!("there is no act {other}"),
    }
}

fn ruled(rule: Option<Rule>) -> String {
    format!("{{\"ruled\":{}}}", rule_text(rule))
}

fn sent(message: u64) -> String {
    format!("{{\"sent\":{message}}}")
}

/// Makes an act, and holds what the guard answers against the entry.
fn play(guard: &mut Guard, asked: &Asked) {
    let reply = match asked {
        Asked::Kill(actor, order) => reply_of_kill(order.give(guard, *actor)),
        Asked::Up(actor, process) => reply_of_report(guard.up(*actor, *process)),
        Asked::Heal(actor, process) => reply_of_report(guard.heal(*actor, *process)),
        Asked::Numbered(words) => numbered(guard, words).map_or_else(refusal, whole),
        Asked::Line(line) => {
            let entry = guard.act(line).expect(line);
            assert_eq!(entry, last(guard));
            return;
        }
    };
    let entry = last(guard);
    let (_, told) = entry.split_once("\"reply\":").expect("a reply");
    assert!(told.starts_with(&reply), "{reply} is answered, and {entry}");
}

fn last(guard: &Guard) -> String {
    guard.entry(guard.journal_len() - 1).expect("an entry")
}

/// What an entry has as the reply to a kill, whole.
fn reply_of_kill(answer: Result<Verdict, Error>) -> String {
    let verdict = match answer {
        Ok(verdict) => verdict,
        Err(error) => return refusal(error),
    };
    let rule = rule_text(verdict.rule);
    let struck = match verdict.struck {
        None => "null".to_owned(),
        Some(kind) => format!("\"{kind}\""),
    };
    whole(format!(
        "{{\"verdict\":{{\"rule\":{rule},\"struck\":{struck}}}}}"
    ))
}

/// A reply with the end of its entry.
fn whole(reply: String) -> String {
    reply + "}\n"
}

/// What an entry has for a rule.
fn rule_text(rule: Option<Rule>) -> String {
    match rule.map(|rule| (rule.word(), rule.named())) {
        None => "null".to_owned(),
        Some((word, None)) => format!("[\"{word}\"]"),
        Some((word, Some(number))) => format!("[\"{word}\",{number}]"),
    }
}

fn reply_of_report(answer: Result<(), Error>) -> String {
    match answer {
        Ok(()) => "\"done\"}\n".to_owned(),
        Err(error) => refusal(error),
    }
}

/// What the reply begins with; a refusal may name a record behind it.
fn refusal(error: Error) -> String {
    match error {
        Error::Refused(refusal) => format!("{{\"no\":[\"{refusal}\""),
        Error::RefusedBy { refusal, named } => whole(format!("{{\"no\":[\"{refusal}\",{named}]}}")),
        other => panic!("{other}"),
    }
}

fn alone(config: &str, acts: &[Asked]) -> Guard {
    let mut guard = Guard::open(config).expect("a cluster file");
    acts.iter().for_each(|act| play(&mut guard, act));
    guard
}

fn moved(config: &str, acts: &[Asked]) -> Guard {
    let mut guard = Guard::open(config).expect("a cluster file");
    for some in acts.chunks(100) {
        let turn = move || {
            some.iter().for_each(|act| play(&mut guard, act));
            guard
        };
        guard = thread::scope(|scope| scope.spawn(turn).join().expect("no panic"));
    }
    guard
}

fn apart(config: &str, acts: &[Asked]) -> String {
    let audits = Mutex::new(Vec::new());
    thread::scope(|scope| {
        for number in 0..THREADS {
            let audits = &audits;
            scope.spawn(move || {
                let guard = match number % 2 {
                    0 => alone(config, acts),
                    _ => moved(config, acts),
                };
                let audit = guard.audit().expect("an audit");
                audits.lock().expect("no panic").push(audit);
            });
        }
    });
    let mut audits = audits.into_inner().expect("no panic");
    assert_eq!(audits.len(), THREADS);
    audits.dedup();
    assert_eq!(audits.len(), 1, "the guards differ");
    audits.remove(0)
}

fn shared(config: &str, acts: &[Asked]) -> Guard {
    let guard = Mutex::new(Guard::open(config).expect("a cluster file"));
    thread::scope(|scope| {
        for first in 0..THREADS {
            let guard = &guard;
            scope.spawn(move || {
                for act in acts.iter().skip(first).step_by(THREADS) {
                    play(&mut guard.lock().expect("no panic"), act);
                }
            });
        }
    });
    guard.into_inner().expect("no panic")
}

fn refused(configs: &[String]) -> io::Result<()> {
    for config in configs {
        match Guard::open(fs::read(config)?) {
            Ok(_) => println!("opened"),
            Err(error) => println!("{error}"),
        }
    }
    Ok(())
}

/// Answers each line of standard input.
fn answer_lines() -> io::Result<()> {
    let mut guard = None;
    for line in io::stdin().lines() {
        let line = line?;
        if line.starts_with('/') {
            guard = Some(Guard::open(fs::read_to_string(line)?).expect("a cluster file"));
            continue;
        }
        let guard = guard.as_mut().expect("a guard");
        let is_question = line.starts_with(r#"{"ask""#);
        let answer = if is_question {
            guard.ask(&line)
        } else {
            guard.act(&line)
        };
        print!("{}", answer.expect("an answer"));
    }
    Ok(())
}

fn main() -> io::Result<()> {
    let words: Vec<String> = env::args().skip(1).collect();
    if words[0] == "refused" {
        return refused(&words[1..]);
    }
    if words[0] == "asked" {
        return answer_lines();
    }
    let config = fs::read_to_string(&words[1])?;
    let mut text = String::new();
    io::stdin().read_to_string(&mut text)?;
    let acts: Vec<Asked> = text.lines().map(asked).collect();
    match words[0].as_str() {
        "alone" => alone(&config, &acts).write_audit(io::stdout())?,
        "apart" => print!("{}", apart(&config, &acts)),
        "moved" => moved(&config, &acts).write_audit(io::stdout())?,
        "shared" => shared(&config, &acts).write_audit(io::stdout())?,
        other => panic!("there is no {other}"),
    }
    Ok(())
}

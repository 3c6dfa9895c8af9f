//! Memory that the system refuses. And that a guard gives back what it took.
//!
//! One test alone, since what is refused is refused to the whole process.

#![deny(unsafe_op_in_unsafe_fn)]

use faultyard::{
    words, Attrition, Check, ConfigFault, Error, Guard, Key, Kind, Part, Refusal, AUDIT_HEADER,
};
use std::alloc::{GlobalAlloc, Layout};
use std::ffi::c_void;
use std::sync::atomic::{AtomicBool, AtomicIsize, AtomicUsize, Ordering::SeqCst};
use std::{io, ptr};

const CONFIG: &str = include_str!("cluster.toml");
const LINE: &str = r#"{"by":0,"act":{"up":{"process":0}}}"#;

/// `struct mallinfo2` of glibc.
#[repr(C)]
struct MemoryCounts([usize; 10]);

/// `uordblks` and `hblkhd` among them.
const HEAP_IN_USE: usize = 7;
const MAPPED_IN_USE: usize = 4;

extern "C" {
    fn posix_memalign(at: *mut *mut c_void, align: usize, size: usize) -> i32;
    fn malloc_usable_size(at: *mut c_void) -> usize;
    fn free(at: *mut c_void);
    fn mallinfo2() -> MemoryCounts;
}

/// Rust's own memory, which isn't asked of `malloc`. So `malloc` is the library's alone.
struct Apart;

#[global_allocator]
static APART: Apart = Apart;

// SAFETY: posix_memalign answers a block of its own, of this size and alignment, or fails.
unsafe impl GlobalAlloc for Apart {
    unsafe fn alloc(&self, layout: Layout) -> *mut u8 {
        aligned(layout.align().max(16), layout.size()).cast()
    }

    unsafe fn dealloc(&self, at: *mut u8, _: Layout) {
        // SAFETY: `alloc` answered it.
        unsafe { free(at.cast()) }
    }
}

fn aligned(align: usize, size: usize) -> *mut c_void {
    let mut at = ptr::null_mut();
    // SAFETY: the pointer is to a local.
    match unsafe { posix_memalign(&mut at, align, size) } {
        0 => at,
        _ => ptr::null_mut(),
    }
}

static IS_REFUSED: AtomicBool = AtomicBool::new(false);
/// How many more requests are granted while memory is refused.
static GRANTED: AtomicIsize = AtomicIsize::new(0);
/// How many requests for memory were refused.
static REFUSED: AtomicUsize = AtomicUsize::new(0);

fn is_refused() -> bool {
    let refused = IS_REFUSED.load(SeqCst) && GRANTED.fetch_sub(1, SeqCst) <= 0;
    REFUSED.fetch_add(usize::from(refused), SeqCst);
    refused
}

/// In place of the system's.
#[no_mangle]
pub extern "C" fn malloc(size: usize) -> *mut c_void {
    if is_refused() {
        return ptr::null_mut();
    }
    aligned(16, size)
}

/// In place of the system's.
///
/// # Safety
///
/// As of the system's.
#[no_mangle]
pub unsafe extern "C" fn realloc(old: *mut c_void, size: usize) -> *mut c_void {
    if is_refused() {
        return ptr::null_mut();
    }
    let new = aligned(16, size);
    if !new.is_null() && !old.is_null() {
        // SAFETY: both blocks have as many bytes, and the old one isn't used again.
        unsafe {
            let length = malloc_usable_size(old).min(size);
            ptr::copy_nonoverlapping(old.cast::<u8>(), new.cast::<u8>(), length);
            free(old);
        }
    }
    new
}

/// What a call answers to which no memory is given.
fn without_memory<T>(call: impl FnOnce() -> T) -> T {
    let before = REFUSED.load(SeqCst);
    IS_REFUSED.store(true, SeqCst);
    let answer = call();
    IS_REFUSED.store(false, SeqCst);
    assert!(REFUSED.load(SeqCst) > before, "it asked for no memory");
    answer
}

/// Makes an act that asks for memory only where the journal grows, until it does.
fn until_it_asks<T>(mut act: impl FnMut() -> Result<T, Error>) -> Error {
    let before = REFUSED.load(SeqCst);
    for _ in 0..10_000 {
        IS_REFUSED.store(true, SeqCst);
        let answer = act();
        IS_REFUSED.store(false, SeqCst);
        if REFUSED.load(SeqCst) > before {
            return answer.err().expect("an error");
        }
    }
    panic!("it asked for no memory");
}

fn no_memory() {
    let opened = without_memory(|| Guard::open(CONFIG));
    assert_eq!(opened.err(), Some(Error::NoMemory));
    let mut guard = Guard::open(CONFIG).unwrap();
    assert_eq!(guard.up(0, 0), Err(Error::Refused(Refusal::IsUp)));
    let by_number = |guard: &mut Guard, number: usize| match number {
        0 => guard.up(0, 0),
        1 => guard.heal(0, 0),
        _ => {
            let (kind, floor) = (Kind::Reboot, Kind::RebootProcess);
            let verdict = guard.kill(1, Key::Zone, "z9", kind, floor, 0);
            verdict.map(|verdict| assert_eq!(verdict.struck, None))
        }
    };
    for number in 0..3 {
        let error = until_it_asks(|| match by_number(&mut guard, number) {
            Err(Error::Refused(_)) => Ok(()),
            other => other,
        });
        assert_eq!(error, Error::NoMemory);
    }
    let made = guard.journal_len();
    assert_eq!(without_memory(|| guard.act(LINE)), Err(Error::NoMemory));
    assert_eq!(guard.journal_len(), made);
    assert_eq!(without_memory(|| guard.entry(0)), Err(Error::NoMemory));
    assert_eq!(without_memory(|| guard.audit()), Err(Error::NoMemory));
    let copied = without_memory(|| guard.try_copy());
    assert_eq!(copied.err(), Some(Error::NoMemory));
    let line = without_memory(|| guard.journal().next());
    assert_eq!(line, Some(Err(Error::NoMemory)));
    let written = without_memory(|| guard.write_audit(io::sink())).unwrap_err();
    assert_eq!(written.kind(), io::ErrorKind::OutOfMemory);
    // With memory it goes on as if nothing had been.
    assert_eq!(guard.up(0, 0), Err(Error::Refused(Refusal::IsUp)));
    assert_eq!(guard.audit().unwrap().lines().count(), made + 2);
}

fn no_memory_for_plans_and_checks() {
    let guard = Guard::open(CONFIG).unwrap();
    assert_eq!(without_memory(|| words(0, 0, 9)), Err(Error::NoMemory));
    let plan = without_memory(|| guard.swizzle_plan(0, 0, 1));
    assert_eq!(plan, Err(Error::NoMemory));
    let plan = without_memory(|| guard.attrition_plan(0, 0, Attrition::default()));
    assert_eq!(plan, Err(Error::NoMemory));
    let begun = without_memory(|| Check::begin(CONFIG));
    assert_eq!(begun.err(), Some(Error::NoMemory));
    let mut check = Check::begin(CONFIG).unwrap();
    let header = without_memory(|| check.line(AUDIT_HEADER));
    assert_eq!(header, Err(Error::NoMemory));
    assert_eq!(check.finding(), Err(Error::NoHeader));
    assert_eq!(check.line(AUDIT_HEADER), Ok(None));
}

/// A cluster file that is refused is read once more, to say where its fault is.
fn no_memory_to_say_where_a_fault_is() {
    let config = CONFIG.replace("\"p1\"", "\"p0\"");
    let answers = (0..10_000).map(|granted| {
        GRANTED.store(granted, SeqCst);
        IS_REFUSED.store(true, SeqCst);
        let answer = Guard::open(&config);
        IS_REFUSED.store(false, SeqCst);
        GRANTED.store(0, SeqCst);
        answer.expect_err("an error")
    });
    let refused = answers.take_while(|it| *it == Error::NoMemory).count();
    assert!(refused > 1 && refused % 2 == 0, "{refused} requests");
    let (part, place) = (Part::Process, 1);
    let fault = ConfigFault::Name { part, place };
    assert_eq!(Guard::open(&config).err(), Some(Error::Config(fault)));
}

/// All calls that ask, but for those that write a line.
fn ask(guard: &Guard) {
    assert_eq!((guard.process("p5"), guard.process_count()), (Some(5), 6));
    assert!(guard.targets(Key::Zone, "z1").unwrap().iter().eq(2..4));
    assert!(guard.left().iter().eq(0..6) && !guard.is_destroyed(0));
    assert!(guard.destroyed().is_empty() && guard.gone().is_empty());
    assert_eq!((guard.is_acked(0), guard.keeper(0)), (false, None));
    assert_eq!((guard.sight().now, guard.journal_len()), (0, 0));
}

fn no_memory_is_asked_for() {
    let guard = Guard::open(CONFIG).unwrap();
    let before = REFUSED.load(SeqCst);
    IS_REFUSED.store(true, SeqCst);
    ask(&guard);
    IS_REFUSED.store(false, SeqCst);
    assert_eq!(REFUSED.load(SeqCst), before);
}

/// How many bytes of all that was asked for aren't given back.
fn in_use() -> usize {
    // SAFETY: it reads what glibc counts.
    let MemoryCounts(counts) = unsafe { mallinfo2() };
    counts[HEAP_IN_USE] + counts[MAPPED_IN_USE]
}

fn memory_is_given_back() {
    let round = || {
        let mut guard = Guard::open(CONFIG).unwrap();
        for _ in 0..2000 {
            assert!(guard.up(0, 0).is_err());
        }
    };
    round();
    let before = in_use();
    (0..5).for_each(|_| {
        round();
        let more = in_use().saturating_sub(before);
        assert!(more < 100_000, "{more} bytes are left");
    });
}

#[test]
fn what_the_system_refuses() {
    memory_is_given_back();
    no_memory();
    no_memory_for_plans_and_checks();
    no_memory_to_say_where_a_fault_is();
    no_memory_is_asked_for();
}

/* What each call of faultyard.hpp does, answers and throws, by the words of docs/FORMATS.md. */
#include <faultyard.hpp>

#include "told.h"

#include <climits>
#include <iterator>
#include <set>
#include <thread>
#include <type_traits>
#include <vector>

using namespace faultyard;

static_assert(!std::is_copy_constructible_v<Guard> && !std::is_copy_assignable_v<Guard>);
static_assert(std::is_nothrow_move_constructible_v<Guard> &&
              std::is_nothrow_move_assignable_v<Guard>);
static_assert(!std::is_convertible_v<std::string_view, Guard>);
static_assert(std::is_base_of_v<std::exception, Error> &&
              std::is_nothrow_copy_constructible_v<Error>);
static_assert(empties_disk(Kind::RebootAndDelete) && empties_disk(Kind::KillInstantly));
static_assert(!empties_disk(Kind::RebootProcess) && !empties_disk(Kind::Reboot));
static_assert(is_final(Kind::KillInstantly) && !is_final(Kind::RebootAndDelete));

static std::set<Status> met;

template <typename Call>
static void throws(int line, Status status, std::optional<Refusal> refusal, Call call)
{
    checked++;
    try {
        call();
        fprintf(stderr, "line %d: nothing is thrown\n", line);
    } catch (const Error &error) {
        met.insert(error.status());
        if (error.status() == status && error.refusal() == refusal)
            return;
        fprintf(stderr, "line %d: %s\n", line, error.what());
    }
    wrong++;
}

#define HOLDS(condition) EQUAL(condition, true)
#define THROWS(status, ...) throws(__LINE__, Status::status, std::nullopt, [&] { __VA_ARGS__; })
#define REFUSES(refusal, ...) \
    throws(__LINE__, Status::Refused, Refusal::refusal, [&] { __VA_ARGS__; })

/* How many requests for memory the library is granted: the linker has malloc and realloc come here
 * (--wrap). */
static const unsigned long ALL = ULONG_MAX;
static unsigned long granted = ALL;
static bool is_refused()
{
    const bool refused = granted == 0;
    if (!refused && granted != ALL)
        granted--;
    return refused;
}
extern "C" {
void *__real_malloc(size_t size);
void *__real_realloc(void *block, size_t size);
void *__wrap_malloc(size_t size)
{
    return is_refused() ? nullptr : __real_malloc(size);
}
void *__wrap_realloc(void *block, size_t size)
{
    return is_refused() ? nullptr : __real_realloc(block, size);
}
}

static Verdict verdict(std::optional<Kind> struck, std::optional<Rule> barred = {},
                       std::optional<uint64_t> by = {})
{
    return {struck, barred, by};
}

/* A record in a team of p0 and p2 is acknowledged. Messages 0 and 1 store it, 2 and 3 answer. */
static const char *const ACKED[] = {
    "{\"form\":{\"members\":[0,2],\"policy\":0}}",
    "{\"begin\":{\"payload\":\"6869\",\"team\":0}}",
    "{\"deliver\":{\"message\":0}}",
    "{\"deliver\":{\"message\":1}}",
    "{\"sync\":{\"process\":0}}",
    "{\"sync\":{\"process\":2}}",
    "{\"deliver\":{\"message\":2}}",
    "{\"deliver\":{\"message\":3}}",
};

/* Makes the acts of ACKED from one on up to another. */
static void make(Guard &guard, size_t from, size_t end)
{
    for (size_t at = from; at < end; at++)
        guard.act("{\"by\":0,\"act\":" + std::string(ACKED[at]) + "}");
}

/* Zone z0 may go for good, and then z1 is rebooted. */
static void worked_kill()
{
    Guard guard(SIX);
    HOLDS(guard.is_open());
    HOLDS(guard.audit() == FY_AUDIT_HEADER);
    HOLDS(guard.left() == Processes(0x3f));
    HOLDS(guard.kill(1, Key::Zone, "z0", Kind::KillInstantly, Kind::Reboot) ==
          verdict(Kind::KillInstantly));
    const Verdict second = guard.kill(1, Key::Zone, "z1", Kind::KillInstantly, Kind::Reboot);
    HOLDS(second == verdict(Kind::Reboot, Rule::TooManyDestroyed, 0));
    HOLDS(second != verdict(Kind::Reboot, Rule::TooManyDestroyed, 1));
    const std::string first_line =
        "{\"act\":{\"kill\":{\"floor\":\"Reboot\",\"key\":\"zoneid\",\"kind\":\"KillInstantly\","
        "\"tear\":0,\"value\":\"z0\"}},"
        "\"at\":0,\"by\":1,\"reply\":{\"verdict\":{\"rule\":null,\"struck\":\"KillInstantly\"}}}\n";
    HOLDS(guard.entry(0) == first_line);
    EQUAL(guard.journal_len(), 2);
    HOLDS(guard.audit() == FY_AUDIT_HEADER + first_line + guard.entry(1));
    for (uint32_t process = 0; process < 6; process++)
        EQUAL(guard.is_destroyed(process), process < 2);
    EQUAL(guard.is_destroyed(UINT32_MAX), false);
    HOLDS(guard.left() == Processes(0x3c));
    HOLDS(guard.act("{\"by\":0,\"act\":{\"tick\":{\"ticks\":5}}}") ==
          "{\"act\":{\"tick\":{\"ticks\":5}},\"at\":2,\"by\":0,\"reply\":{\"time\":5}}\n");
    HOLDS(guard.act("{\"by\":0,\"act\":{\"up\":{\"process\":5}}}") ==
          "{\"act\":{\"up\":{\"process\":5}},\"at\":3,\"by\":0,\"reply\":{\"no\":[\"IsUp\"]}}\n");
    HOLDS(guard.ask("{\"ask\":{\"targets\":{\"key\":\"zoneid\",\"value\":\"z1\"}}}") ==
          "{\"told\":{\"targets\":[2,3]}}\n");
    const std::string longer = guard.ask("{\"ask\":{\"state\":{}}}");
    HOLDS(longer.size() > 512 && longer.substr(longer.size() - 6) == "}]}}}\n");
    THROWS(LineSyntax, (void)guard.ask("{\"by\":0,\"act\":{\"tick\":{\"ticks\":5}}}"));
    THROWS(LineTooLong, (void)guard.ask(std::string(65537, ' ')));
    EQUAL(guard.journal_len(), 4);
}

/* Each rule, with what it names. The floor is RebootProcess where it is left out, and the tear 0.
 */
static void rules()
{
    Guard guard(SIX);
    HOLDS(guard.kill(1, Key::Process, "nobody", Kind::Reboot) == verdict({}, Rule::NoTarget));
    HOLDS(guard.entry(0).find("\"floor\":\"RebootProcess\"") != std::string::npos);
    HOLDS(guard.entry(0).find("\"tear\":0,") != std::string::npos);
    HOLDS(guard.kill(3, Key::Machine, "m4", Kind::Reboot) == verdict({}, Rule::NoGrant, 4));
    guard.act("{\"by\":4,\"act\":{\"protect\":{\"process\":5,\"kinds\":[\"Reboot\","
              "\"KillInstantly\"]}}}");
    HOLDS(guard.kill(1, Key::Process, "p5", Kind::KillInstantly) ==
          verdict(Kind::RebootAndDelete, Rule::Protected, 5));
    HOLDS(guard.kill(1, Key::Zone, "z0", Kind::RebootAndDelete, Kind::RebootAndDelete) ==
          verdict({}, Rule::TooManyDestroyed, 0));
    HOLDS(guard.kill(1, Key::DataCenter, "d0", Kind::RebootProcess) ==
          verdict(Kind::RebootProcess));
    HOLDS(guard.kill(1, Key::DataHall, "d0", Kind::Reboot) == verdict({}, Rule::NoTarget));
    HOLDS(guard.kill(1, Key::Process, "p0", Kind::Reboot, Kind::Reboot, UINT64_MAX) ==
          verdict(Kind::Reboot));
    HOLDS(guard.entry(guard.journal_len() - 1).find("\"tear\":18446744073709551615,") !=
          std::string::npos);
    Guard three(THREE);
    HOLDS(three.kill(0, Key::Zone, "z0", Kind::KillInstantly, Kind::KillInstantly) ==
          verdict({}, Rule::TooFewLeft, 0));
}

/* What is refused throws with its reason, and stands in the journal all the same. */
static void refusals()
{
    Guard guard(SIX);
    REFUSES(IsUp, guard.up(0, 0));
    REFUSES(NoProcess, guard.up(0, 6));
    REFUSES(Stranger, guard.up(9, 0));
    REFUSES(WrongRole, guard.up(1, 0));
    REFUSES(NotDestroyed, guard.heal(0, 0));
    REFUSES(Stranger, (void)guard.kill(9, Key::Process, "p0", Kind::Reboot));
    EQUAL(guard.journal_len(), 6);
    /* A record in a team of p0 and p2 is acknowledged. Then p0 is emptied, and lacks it. */
    make(guard, 0, std::size(ACKED));
    HOLDS(guard.kill(1, Key::Process, "p0", Kind::RebootAndDelete) ==
          verdict(Kind::RebootAndDelete));
    REFUSES(NotUp, guard.heal(0, 0));
    guard.up(0, 0);
    REFUSES(StillNeeds, guard.heal(0, 0));
    HOLDS(guard.needed(0) == 0U);
    HOLDS(guard.needed(1) == std::nullopt && guard.needed(2) == std::nullopt);
    HOLDS(guard.needed(6) == std::nullopt);
    guard.act("{\"by\":0,\"act\":{\"copy\":{\"from\":2,\"record\":0,\"to\":0}}}");
    guard.act("{\"by\":0,\"act\":{\"deliver\":{\"message\":4}}}");
    guard.act("{\"by\":0,\"act\":{\"sync\":{\"process\":0}}}");
    HOLDS(guard.needed(0) == std::nullopt);
    guard.heal(0, 0);
    EQUAL(guard.is_destroyed(0), false);
    HOLDS(guard.kill(1, Key::Process, "p4", Kind::KillInstantly) == verdict(Kind::KillInstantly));
    REFUSES(Gone, guard.up(0, 4));
    HOLDS(guard.left() == Processes(0x2f));
}

/* Whom a kill is about, and who is destroyed and gone. */
static void sets()
{
    Guard guard(SIX);
    const Guard &asked = guard;
    HOLDS(asked.targets(Key::Process, "p3") == Processes(0x08));
    HOLDS(asked.targets(Key::Machine, "m5") == Processes(0x20));
    HOLDS(asked.targets(Key::Zone, "z0") == Processes(0x03));
    HOLDS(asked.targets(Key::DataCenter, "d0") == Processes(0x3f));
    HOLDS(asked.targets(Key::DataHall, "d0").none());
    THROWS(Name, asked.targets(Key::Zone, ""));
    THROWS(Name, asked.targets(Key::Zone, std::string_view()));
    THROWS(Argument, asked.targets(static_cast<Key>(6), ""));
    HOLDS(asked.destroyed().none() && asked.gone().none());
    HOLDS(guard.kill(1, Key::Process, "p1", Kind::KillInstantly) == verdict(Kind::KillInstantly));
    HOLDS(guard.kill(1, Key::Process, "p0", Kind::RebootAndDelete) ==
          verdict(Kind::RebootAndDelete));
    HOLDS(asked.targets(Key::Zone, "z0") == Processes(0x01));
    HOLDS(asked.destroyed() == Processes(0x03));
    HOLDS(asked.gone() == Processes(0x02));
    guard.up(0, 0);
    guard.heal(0, 0);
    HOLDS(asked.destroyed() == Processes(0x02));
}

/* Who is up, and the state of each process. */
static void states()
{
    Guard guard(SIX);
    const Guard &asked = guard;
    State up;
    up.up = true;
    HOLDS(asked.up_set() == Processes(0x3f));
    for (uint32_t process = 0; process < 6; process++)
        HOLDS(asked.state(process) == up);
    HOLDS(asked.state(6) == std::nullopt && asked.state(UINT32_MAX) == std::nullopt);
    HOLDS(guard.kill(1, Key::Process, "p1", Kind::KillInstantly) == verdict(Kind::KillInstantly));
    HOLDS(guard.kill(1, Key::Process, "p0", Kind::RebootAndDelete) ==
          verdict(Kind::RebootAndDelete));
    guard.act("{\"by\":1,\"act\":{\"clog\":{\"key\":\"processid\",\"value\":\"p2\",\"ticks\":3}}}");
    HOLDS(asked.up_set() == Processes(0x3c));
    State emptied;
    emptied.destroyed = true;
    HOLDS(asked.state(0) == emptied);
    State gone = emptied;
    gone.gone = true;
    HOLDS(asked.state(1) == gone);
    HOLDS(gone != emptied);
    State clogged = up;
    clogged.clogged = true;
    HOLDS(asked.state(2) == clogged);
    HOLDS(asked.state(3) == up);
}

/* Each order is judged, then made. Judging enters nothing. */
static void judged()
{
    Guard guard(SIX);
    const Guard &asked = guard;
    std::size_t entries = 0;
    for (std::string_view zone : {"z0", "z1", "z2", "z9"})
        for (Kind kind : {Kind::KillInstantly, Kind::RebootAndDelete, Kind::Reboot})
            for (Kind floor : {Kind::Reboot, Kind::RebootProcess}) {
                const Verdict before = asked.judge(1, Key::Zone, zone, kind, floor);
                EQUAL(asked.journal_len(), entries);
                HOLDS(guard.kill(1, Key::Zone, zone, kind, floor) == before);
                entries++;
            }
    THROWS(Argument, (void)asked.judge(1, static_cast<Key>(0), "p0", Kind::Reboot));
    THROWS(Name, (void)asked.judge(1, Key::Process, std::string_view(), Kind::Reboot));
    THROWS(Floor, (void)asked.judge(1, Key::Process, "p0", Kind::Reboot, Kind::KillInstantly));
    REFUSES(Stranger, (void)asked.judge(9, Key::Process, "p0", Kind::Reboot));
    EQUAL(asked.journal_len(), entries);
}

/* By a process's number as by its name: the same verdicts, and the same audit. */
static void by_number()
{
    Guard named(SIX), numbered(SIX);
    const Guard &asked = numbered;
    for (std::uint32_t process = 0; process < 6; process++)
        for (Kind kind : {Kind::KillInstantly, Kind::RebootAndDelete, Kind::Reboot}) {
            const std::string name = "p" + std::to_string(process);
            const Verdict verdict = named.kill(1, Key::Process, name, kind, Kind::Reboot, 5);
            HOLDS(asked.judge_process(1, process, kind, Kind::Reboot) == verdict);
            HOLDS(numbered.kill_process(1, process, kind, Kind::Reboot, 5) == verdict);
        }
    HOLDS(numbered.audit() == named.audit());
    const std::size_t entries = asked.journal_len();
    THROWS(Argument, (void)numbered.kill_process(1, 6, Kind::Reboot));
    THROWS(Argument, (void)asked.judge_process(1, 6, Kind::Reboot));
    THROWS(Floor, (void)numbered.kill_process(1, 0, Kind::Reboot, Kind::KillInstantly));
    THROWS(Floor, (void)asked.judge_process(1, 0, Kind::Reboot, Kind::KillInstantly));
    REFUSES(Stranger, (void)asked.judge_process(9, 0, Kind::Reboot));
    EQUAL(asked.journal_len(), entries);
    REFUSES(Stranger, (void)numbered.kill_process(9, 0, Kind::Reboot));
    EQUAL(asked.journal_len(), entries + 1);
}

/* Each process has the kind of its own judgement. */
static void which_may_be_killed()
{
    Guard guard(SIX);
    const Guard &asked = guard;
    guard.protect(4, 5, Kinds::KillInstantly | Kinds::Reboot);
    using Answer = std::vector<std::optional<Kind>>;
    const auto hard = Kind::KillInstantly;
    HOLDS(asked.killable(1) == (Answer{hard, hard, hard, hard, hard, Kind::RebootAndDelete}));
    HOLDS(asked.killable(3) == Answer(6));
    (void)guard.kill_process(1, 0, hard);
    const std::size_t entries = asked.journal_len();
    const auto mild = Kind::Reboot;
    HOLDS(asked.killable(1) == (Answer{{}, hard, mild, mild, mild, Kind::RebootProcess}));
    for (std::uint32_t process = 0; process < 6; process++)
        HOLDS(asked.killable(2)[process] == asked.judge_process(2, process, hard).struck);
    REFUSES(Stranger, (void)asked.killable(9));
    EQUAL(asked.journal_len(), entries);
}

/* Any one of six may go, and none once a zone has gone. */
static void how_much_may_be_lost()
{
    Guard guard(SIX);
    const Guard &asked = guard;
    HOLDS(asked.bears() == (Borne{1, 1, true, true}));
    (void)guard.kill(1, Key::Zone, "z1", Kind::KillInstantly);
    HOLDS(asked.bears() == (Borne{0, 0, true, true}));
    HOLDS(Guard(THREE).bears() == (Borne{2, 0, true, true}));
    HOLDS(asked.bears() != Borne());
    EQUAL(asked.journal_len(), 1);
}

/* A guard that is reset does the same again. */
static void resets()
{
    Guard guard(SIX);
    std::string audits[2];
    for (std::string &audit : audits) {
        make(guard, 0, std::size(ACKED));
        HOLDS(guard.kill(1, Key::Zone, "z0", Kind::KillInstantly) == verdict(Kind::KillInstantly));
        audit = guard.audit();
        guard.reset();
        HOLDS(guard.audit() == FY_AUDIT_HEADER);
        HOLDS(guard.left() == Processes(0x3f) && guard.up_set() == Processes(0x3f));
    }
    HOLDS(audits[0] == audits[1]);
}

/* A copy has the journal of its guard; what is done with one changes nothing of the other, and it
 * outlives its guard. */
static void copies()
{
    std::optional<Guard> guard(std::in_place, SIX);
    make(*guard, 0, std::size(ACKED));
    HOLDS(guard->kill(1, Key::Zone, "z0", Kind::KillInstantly) == verdict(Kind::KillInstantly));
    const std::string before = guard->audit();
    const Guard &asked = *guard;
    Guard other = asked.try_copy();
    HOLDS(other.audit() == before);
    HOLDS(other.left() == Processes(0x3c) && other.keeper(0) == 2U);
    HOLDS(other.kill(1, Key::Process, "p4", Kind::Reboot) == verdict(Kind::Reboot));
    HOLDS(other.up_set() == Processes(0x2c) && guard->up_set() == Processes(0x3c));
    HOLDS(guard->audit() == before);
    const std::string ahead = other.audit();
    guard->reset();
    guard = std::nullopt;
    HOLDS(other.audit() == ahead);
    other = other.try_copy();
    HOLDS(other.audit() == ahead);
}

/* A guard that goes on where an audit ends, and what it refuses. */
static void goes_on()
{
    const std::string header(FY_AUDIT_HEADER);
    Guard guard(SIX);
    HOLDS(guard.kill(1, Key::Zone, "z0", Kind::KillInstantly) == verdict(Kind::KillInstantly));
    const std::string before = guard.audit();
    Guard other = Guard::open_after(SIX, before);
    HOLDS(other.audit() == before);
    HOLDS(other.kill(1, Key::Zone, "z1", Kind::KillInstantly, Kind::Reboot) ==
          guard.kill(1, Key::Zone, "z1", Kind::KillInstantly, Kind::Reboot));
    HOLDS(other.audit() == guard.audit());
    HOLDS(Guard::open_after(SIX, header).audit() == header);
    const std::string tick =
        "{\"act\":{\"tick\":{\"ticks\":1}},\"at\":0,\"by\":0,\"reply\":{\"time\":";
    THROWS(Refuted, (void)Guard::open_after(SIX, header + tick + "2}}\n"));
    try {
        (void)Guard::open_after(SIX, before + "{\"act\":{\"tick\":{\"ticks\":1}},\"at\":1,"
                                              "\"by\":0,\"reply\":{\"time\":2}}\n");
        HOLDS(false);
    } catch (const Error &error) {
        EQUAL(error.status(), Status::Refuted);
        HOLDS(error.place() == 1U);
        HOLDS(std::string_view(error.what()) == "an entry of the audit isn't what the rules give");
    }
    THROWS(LineSyntax, (void)Guard::open_after(SIX, before.substr(0, before.size() - 1)));
    THROWS(NoHeader, (void)Guard::open_after(SIX, "{\"audit\":1}\n"));
    THROWS(NoHeader, (void)Guard::open_after(SIX, std::string_view()));
    THROWS(ConfigField, (void)Guard::open_after("", before));
    granted = 0;
    THROWS(NoMemory, (void)Guard::open_after(SIX, before));
    granted = ALL;
}

/* The processes by their names, and what there is to do until a record is acknowledged. */
static void names_and_records()
{
    Guard guard(SIX);
    const Guard &asked = guard;
    EQUAL(asked.process_count(), 6);
    for (uint32_t process = 0; process < 6; process++)
        HOLDS(asked.process("p" + std::to_string(process)) == process);
    for (std::string_view name : {"p6", "z0", "p", ""})
        HOLDS(asked.process(name) == std::nullopt);
    HOLDS(asked.process(std::string_view()) == std::nullopt);
    Sight wanted;
    HOLDS(asked.sight() == wanted);
    make(guard, 0, 2);
    wanted.deliverable = 0;
    HOLDS(asked.sight() == wanted);
    make(guard, 2, 4);
    wanted.deliverable = std::nullopt;
    HOLDS(asked.sight() != wanted);
    wanted.unsynced = 0;
    HOLDS(asked.sight() == wanted);
    make(guard, 4, 7);
    HOLDS(!asked.is_acked(0) && asked.keeper(0) == std::nullopt);
    make(guard, 7, 8);
    HOLDS(asked.is_acked(0) && asked.keeper(0) == 0U);
    HOLDS(!asked.is_acked(1) && asked.keeper(UINT32_MAX) == std::nullopt);
    guard.act("{\"by\":0,\"act\":{\"tick\":{\"ticks\":5}}}");
    HOLDS(guard.kill(1, Key::Process, "p0", Kind::RebootAndDelete) ==
          verdict(Kind::RebootAndDelete));
    HOLDS(asked.keeper(0) == 2U);
    wanted = Sight();
    wanted.now = 5;
    wanted.sleeping = 0;
    HOLDS(asked.sight() == wanted);
}

/* The last entry has this act and this reply. */
static bool is_entered(const Guard &guard, const std::string &act, const std::string &reply)
{
    const std::string entry = guard.entry(guard.journal_len() - 1);
    const std::string front = "{\"act\":" + act + ",\"at\":";
    const std::string end = ",\"reply\":" + reply + "}\n";
    return entry.compare(0, front.size(), front) == 0 && entry.size() > end.size() &&
           entry.compare(entry.size() - end.size(), end.size(), end) == 0;
}

/* A record is stored, copied and moved, each act by its call by numbers. */
static void numbered_records()
{
    Guard guard(SIX);
    EQUAL(guard.form(0, {0, 2}, 0), 0);
    HOLDS(is_entered(guard, "{\"form\":{\"members\":[0,2],\"policy\":0}}", "{\"formed\":0}"));
    EQUAL(guard.form(0, {0, 2}, 0), 1);
    Begun begun;
    HOLDS(guard.begin(0, 0, "hi") == begun);
    HOLDS(is_entered(guard, "{\"begin\":{\"payload\":\"6869\",\"team\":0}}",
                     "{\"begun\":{\"first\":0,\"record\":0}}"));
    begun = {1, 2};
    HOLDS(guard.begin(0, 1, std::string_view()) == begun);
    HOLDS(begun != Begun());
    guard.lose(0, 1);
    HOLDS(is_entered(guard, "{\"lose\":{\"message\":1}}", "\"done\""));
    EQUAL(guard.resend(0, 0, 2), 4);
    HOLDS(is_entered(guard, "{\"resend\":{\"process\":2,\"record\":0}}", "{\"sent\":4}"));
    HOLDS(guard.deliver(0, 0) == Delivered::Store);
    HOLDS(guard.deliver(0, 4) == Delivered::Store);
    Synced synced;
    synced.first = 5;
    HOLDS(guard.sync(0, 1) == synced);
    synced.count = 1;
    HOLDS(guard.sync(0, 0) == synced && synced != Synced());
    HOLDS(
        is_entered(guard, "{\"sync\":{\"process\":0}}", "{\"synced\":{\"count\":1,\"first\":5}}"));
    synced.first = 6;
    HOLDS(guard.sync(0, 2) == synced);
    EQUAL(guard.tick(0, 9), 9);
    HOLDS(is_entered(guard, "{\"tick\":{\"ticks\":9}}", "{\"time\":9}"));
    HOLDS(guard.deliver(0, 5) == Delivered::Mark);
    HOLDS(guard.deliver(0, 6) == Delivered::Acked);
    HOLDS(is_entered(guard, "{\"deliver\":{\"message\":6}}", "{\"marked\":true}"));
    REFUSES(Acked, guard.resend(0, 0, 2));
    EQUAL(guard.copy(0, 2, 0, 1), 7);
    HOLDS(is_entered(guard, "{\"copy\":{\"from\":2,\"record\":0,\"to\":1}}", "{\"sent\":7}"));
    HOLDS(guard.deliver(0, 7) == Delivered::Store);
    guard.sync(0, 1);
    guard.replace(0, 0, 0, 1);
    HOLDS(is_entered(guard, "{\"replace\":{\"into\":1,\"out\":0,\"team\":0}}", "\"done\""));
}

/* Clogs, grants and protections by numbers. */
static void numbered_rights()
{
    Guard guard(SIX);
    HOLDS(guard.clog(1, Key::Zone, "z1", 3) == Ruling());
    HOLDS(is_entered(guard, "{\"clog\":{\"key\":\"zoneid\",\"ticks\":3,\"value\":\"z1\"}}",
                     "{\"ruled\":null}"));
    HOLDS(guard.state(2)->clogged && guard.state(3)->clogged && !guard.state(4)->clogged);
    HOLDS(guard.unclog(1, Key::Process, "p2") == Ruling());
    HOLDS(!guard.state(2)->clogged && guard.state(3)->clogged);
    Ruling barred;
    barred.rule = Rule::NoTarget;
    HOLDS(guard.unclog(1, Key::Zone, "z9") == barred);
    barred.rule = Rule::NoGrant;
    barred.named = 4;
    HOLDS(guard.clog(3, Key::Zone, "z2", 1) == barred && barred != Ruling());
    guard.give(4, 3, Kinds::Reboot | Kinds::Clog, Key::Zone, "z2");
    HOLDS(is_entered(guard,
                     "{\"give\":{\"actor\":3,\"kinds\":[\"Reboot\",\"Clog\"],"
                     "\"scope\":{\"key\":\"zoneid\",\"value\":\"z2\"}}}",
                     "\"done\""));
    HOLDS(guard.clog(3, Key::Zone, "z2", 1) == Ruling());
    guard.give(4, 3, Kinds::All);
    HOLDS(guard.entry(guard.journal_len() - 1).find("\"scope\":\"all\"") != std::string::npos);
    guard.take(4, 3, 1);
    HOLDS(is_entered(guard, "{\"take\":{\"actor\":3,\"index\":1}}", "\"done\""));
    guard.protect(4, 5, Kinds::RebootProcess | Kinds::KillInstantly);
    HOLDS(is_entered(guard,
                     "{\"protect\":{\"kinds\":[\"RebootProcess\",\"KillInstantly\"],"
                     "\"process\":5}}",
                     "\"done\""));
    guard.unprotect(4, 5, Kinds::RebootAndDelete);
    HOLDS(is_entered(guard, "{\"unprotect\":{\"kinds\":[\"RebootAndDelete\"],\"process\":5}}",
                     "\"done\""));
}

/* What an act by numbers throws: what a refusal names, and what enters nothing. */
static void numbered_errors()
{
    Guard guard(SIX);
    const auto named_by = [&](Refusal refusal, auto call) {
        try {
            call();
        } catch (const Error &error) {
            HOLDS(error.status() == Status::Refused && error.refusal() == refusal);
            return error.named();
        }
        return std::optional<uint64_t>();
    };
    HOLDS(named_by(Refusal::TeamShort, [&] { guard.form(0, {0, 1}, 0); }) == 0U);
    HOLDS(named_by(Refusal::TeamShort, [&] { guard.form(0, {}, 0); }) == 0U);
    HOLDS(named_by(Refusal::NoPolicy, [&] { guard.form(0, {0, 2}, 1); }) == std::nullopt);
    make(guard, 0, std::size(ACKED));
    HOLDS(named_by(Refusal::StillNeeds, [&] { guard.replace(0, 0, 0, 1); }) == 0U);
    REFUSES(Stranger, (void)guard.clog(9, Key::Zone, "z0", 1));
    REFUSES(WrongRole, guard.tick(4, 1));
    REFUSES(ClockEnd, guard.tick(0, UINT64_MAX));
    REFUSES(Payload, guard.begin(0, 0, std::string(257, 'a')));
    REFUSES(NoMessage, guard.deliver(0, 9));
    REFUSES(NoMessage, guard.lose(0, 9));
    REFUSES(NoProcess, guard.sync(0, 6));
    REFUSES(NoProcess, guard.protect(4, 6, Kinds::All));
    REFUSES(NoProcess, guard.unprotect(4, 6, Kinds::None));
    REFUSES(NoActor, guard.give(4, 5, Kinds::All));
    REFUSES(NoSuch, guard.take(4, 3, 0));
    REFUSES(NoCopy, guard.copy(0, 1, 0, 3));
    const std::size_t entries = guard.journal_len();
    THROWS(Argument, guard.form(0, {2, 0}, 0));
    THROWS(Argument, guard.begin(0, 0, std::string(FY_MOST_PAYLOAD + 1, 'a')));
    THROWS(Argument, guard.protect(4, 0, static_cast<Kinds>(32)));
    THROWS(Argument, guard.give(4, 3, Kinds::All, static_cast<Key>(0), "z0"));
    THROWS(Name, guard.give(4, 3, Kinds::All, Key::Zone, std::string_view()));
    THROWS(Name, (void)guard.clog(1, Key::Zone, "", 1));
    EQUAL(guard.journal_len(), entries);
    granted = 0;
    THROWS(NoMemory, guard.form(0, {0, 2}, 0));
    THROWS(NoMemory, guard.begin(0, 0, "a"));
    granted = ALL;
    EQUAL(guard.journal_len(), entries);
    Guard full(TWO_PLACES);
    full.tick(0, 1);
    full.tick(0, 1);
    THROWS(JournalFull, full.form(0, {0, 2}, 0));
    THROWS(JournalFull, full.take(4, 3, 0));
    guard.close();
    THROWS(Closed, (void)guard.clog(1, Key::Zone, "z0", 1));
    THROWS(Closed, (void)guard.unclog(1, Key::Zone, "z0"));
    THROWS(Closed, guard.form(0, {0, 2}, 0));
    THROWS(Closed, guard.begin(0, 0, "a"));
    THROWS(Closed, guard.deliver(0, 0));
    THROWS(Closed, guard.lose(0, 0));
    THROWS(Closed, guard.resend(0, 0, 0));
    THROWS(Closed, guard.sync(0, 0));
    THROWS(Closed, guard.tick(0, 1));
    THROWS(Closed, guard.give(4, 3, Kinds::All));
    THROWS(Closed, guard.take(4, 3, 0));
    THROWS(Closed, guard.protect(4, 0, Kinds::All));
    THROWS(Closed, guard.unprotect(4, 0, Kinds::All));
    THROWS(Closed, guard.copy(0, 0, 0, 1));
    THROWS(Closed, guard.replace(0, 0, 0, 1));
}

/* Each error that enters nothing. */
static void errors()
{
    Guard guard(TWO_PLACES);
    THROWS(Argument, (void)guard.kill(1, static_cast<Key>(0), "p0", Kind::Reboot));
    THROWS(Argument, (void)guard.kill(1, Key::Process, "p0", static_cast<Kind>(5)));
    THROWS(Argument, (void)guard.kill(1, Key::Process, "p0", Kind::Reboot, static_cast<Kind>(0)));
    THROWS(Name, (void)guard.kill(1, Key::Process, "", Kind::Reboot));
    THROWS(Name, (void)guard.kill(1, Key::Process, std::string_view(), Kind::Reboot));
    THROWS(Name, (void)guard.kill(1, Key::Process, std::string_view("p0\0", 3), Kind::Reboot));
    THROWS(Name, (void)guard.kill(1, Key::Process, std::string(33, 'p'), Kind::Reboot));
    THROWS(Floor, (void)guard.kill(1, Key::Process, "p0", Kind::Reboot, Kind::KillInstantly));
    THROWS(LineSyntax, guard.act(std::string_view()));
    THROWS(LineSyntax, guard.act("{}"));
    THROWS(Floor, guard.act("{\"by\":1,\"act\":{\"kill\":{\"floor\":\"Reboot\",\"key\":\"zoneid\","
                            "\"kind\":\"RebootProcess\","
                            "\"tear\":0,\"value\":\"z0\"}}}"));
    THROWS(LineSyntax, guard.act(std::string(65536, ' ')));
    THROWS(LineTooLong, guard.act(std::string(65537, ' ')));
    THROWS(NoEntry, guard.entry(0));
    THROWS(NoEntry, guard.entry(SIZE_MAX));
    EQUAL(guard.journal_len(), 0);
    /* A name that isn't the end of its text. */
    HOLDS(guard.kill(1, Key::Process, std::string_view("p0 and more").substr(0, 2), Kind::Reboot) ==
          verdict(Kind::Reboot));
    guard.up(0, 0);
    const std::string before = guard.audit();
    THROWS(JournalFull, guard.up(0, 0));
    THROWS(JournalFull, guard.heal(0, 0));
    THROWS(JournalFull, (void)guard.kill(1, Key::Process, "p0", Kind::Reboot));
    THROWS(JournalFull, guard.act("{\"by\":0,\"act\":{\"tick\":{\"ticks\":5}}}"));
    HOLDS(guard.audit() == before);
}

/* Where the library has no memory, nothing changes. The first entry of a journal needs some. */
static void want_of_memory()
{
    Guard first(SIX), guard(SIX);
    guard.act("{\"by\":0,\"act\":{\"tick\":{\"ticks\":5}}}");
    const std::string before = guard.audit();
    granted = 0;
    THROWS(NoMemory, Guard{SIX});
    THROWS(NoMemory, (void)first.kill(1, Key::Process, "p0", Kind::Reboot));
    THROWS(NoMemory, first.up(0, 0));
    THROWS(NoMemory, first.heal(0, 0));
    THROWS(NoMemory, guard.act("{\"by\":0,\"act\":{\"tick\":{\"ticks\":5}}}"));
    THROWS(NoMemory, (void)guard.ask("{\"ask\":{\"sight\":{}}}"));
    THROWS(NoMemory, guard.reset());
    THROWS(NoMemory, guard.bears());
    THROWS(NoMemory, (void)guard.try_copy());
    THROWS(NoMemory, guard.entry(0));
    THROWS(NoMemory, guard.audit());
    granted = ALL;
    EQUAL(first.journal_len(), 0);
    HOLDS(guard.audit() == before);
}

/* The error of a cluster file that is none. */
static Error refused(std::string_view config)
{
    try {
        Guard guard(config);
    } catch (const Error &error) {
        met.insert(error.status());
        return error;
    }
    return Error(Status::Done);
}

static const char *const NO_NAME = "journal_limit = 1\n" REST("Across(2,zoneid,One())", "z 1");

/* A cluster file that is none, for each reason and each part. */
static void cluster_files()
{
#define GOOD REST("Across(2,zoneid,One())", "z1")
#define NAMED PROCESSES("Across(2,zoneid,One())", "z1")
    const std::optional<uint64_t> nowhere;
    const struct {
        std::string config;
        Status status;
        std::optional<Part> part;
        std::optional<uint64_t> place;
        const char *says;
    } files[] = {
        {std::string(1048577, '\n'), Status::ConfigTooLong, std::nullopt, nowhere,
         "config: TooLong: the cluster file has more than 1,048,576 bytes"},
        {"=", Status::ConfigToml, std::nullopt, nowhere,
         "config: Toml: the cluster file is no TOML document in UTF-8"},
        {"\xff", Status::ConfigToml, std::nullopt, nowhere,
         "config: Toml: the cluster file is no TOML document in UTF-8"},
        {"", Status::ConfigField, Part::JournalLimit, nowhere,
         "config: Field JournalLimit: a key of the cluster file is missing, unknown or of another "
         "type, or a word is none of those that may stand there"},
        {"journal_limit = 1\n", Status::ConfigField, Part::Policies, nowhere,
         "config: Field Policies: a key of the cluster file is missing, unknown or of another "
         "type, or a word is none of those that may stand there"},
        {"journal_limit = 1\nmore = 1\n" GOOD, Status::ConfigField, Part::Unknown, nowhere,
         "config: Field Unknown: a key of the cluster file is missing, unknown or of another "
         "type, or a word is none of those that may stand there"},
        {"journal_limit = 0\n" GOOD, Status::ConfigLimit, Part::JournalLimit, nowhere,
         "config: Limit JournalLimit: a number or a length of the cluster file is outside its "
         "range"},
        {"journal_limit = 1\n" NAMED "actor = []\n", Status::ConfigLimit, Part::Actor, nowhere,
         "config: Limit Actor: a number or a length of the cluster file is outside its range"},
        {NO_NAME, Status::ConfigName, Part::Process, 1,
         "config: Name Process 1: a text of the cluster file is no name, or names what is taken "
         "or isn't there"},
        {"journal_limit = 1\n" NAMED "actor = [{role = \"fault\", grants = "
         "[{kinds = [], key = \"zoneid\", value = \"-\"}]}]\n",
         Status::ConfigName, Part::Actor, 0,
         "config: Name Actor 0: a text of the cluster file is no name, or names what is taken or "
         "isn't there"},
        {"journal_limit = 1\nprotect = [{process = \"p0\", kinds = []}, "
         "{process = \"p1\", kinds = []}, {process = \"p9\", kinds = []}]\n" GOOD,
         Status::ConfigName, Part::Protect, 2,
         "config: Name Protect 2: a text of the cluster file is no name, or names what is taken "
         "or isn't there"},
        {"journal_limit = 1\n" REST("Across(2,zone,One())", "z1"), Status::ConfigPolicy,
         Part::Policies, 0, "config: Policy 0: a text of the cluster file is no policy"},
        {"journal_limit = 1\n" REST("One()\", \"Across(3,zoneid,One())", "z1"), Status::ConfigUnmet,
         Part::Policies, 1,
         "config: PolicyUnmet 1: all processes of the cluster file together don't satisfy one of "
         "its policies"},
    };
    for (const auto &file : files) {
        const Error error = refused(file.config);
        HOLDS(error.status() == file.status && error.refusal() == std::nullopt);
        HOLDS(error.part() == file.part);
        HOLDS(error.place() == file.place);
        HOLDS(std::string_view(error.what()) == file.says);
    }
    HOLDS(refused(std::string_view()).part() == Part::JournalLimit);
    HOLDS(refused(std::string(1048576, '\n')).part() == Part::JournalLimit);
}

/* A cluster file that is refused is read once more for its part and place. */
static void want_of_memory_for_a_fault()
{
    const auto least = [](auto reads) {
        unsigned long requests = 0;
        for (bool is_told = false; !is_told; requests++) {
            granted = requests;
            is_told = reads();
            granted = ALL;
        }
        return requests - 1;
    };
    const unsigned long once = least([] {
        uint32_t part = 0;
        uint64_t place = 0;
        return fy_config_fault(detail::bytes(NO_NAME), strlen(NO_NAME), &part, &place) ==
               FY_CONFIG_NAME;
    });
    const unsigned long twice = least([] {
        const Error error = refused(NO_NAME);
        if (error.status() == Status::ConfigName)
            return error.part() == Part::Process && error.place() == 1U;
        HOLDS(error.status() == Status::NoMemory);
        HOLDS(error.part() == std::nullopt && error.place() == std::nullopt);
        HOLDS(std::string_view(error.what()) == "there was no memory");
        return false;
    });
    HOLDS(once > 0);
    EQUAL(twice, 2 * once);
}

/* The library that is linked is that of the header. */
static void versions()
{
    const Version its = version();
    EQUAL(its.major * 10000 + its.minor * 100 + its.patch, FAULTYARD_VERSION);
    HOLDS(std::to_string(its.major) + "." + std::to_string(its.minor) + "." +
              std::to_string(its.patch) ==
          FAULTYARD_VERSION_TEXT);
    HOLDS(its == version() && its != Version());
}

/* Each call answers that the guard is closed. */
static void assert_closed(Guard &guard)
{
    EQUAL(guard.is_open(), false);
    THROWS(Closed, (void)guard.kill(1, Key::Process, "p0", Kind::Reboot));
    THROWS(Closed, (void)guard.judge(1, Key::Process, "p0", Kind::Reboot));
    THROWS(Closed, (void)guard.kill_process(1, 0, Kind::Reboot));
    THROWS(Closed, (void)guard.judge_process(1, 0, Kind::Reboot));
    THROWS(Closed, (void)guard.killable(1));
    THROWS(Closed, guard.reset());
    THROWS(Closed, (void)guard.try_copy());
    THROWS(Closed, guard.up(0, 0));
    THROWS(Closed, guard.heal(0, 0));
    THROWS(Closed, guard.act("{}"));
    THROWS(Closed, guard.up_set());
    THROWS(Closed, guard.state(0));
    THROWS(Closed, guard.needed(0));
    THROWS(Closed, guard.is_destroyed(0));
    THROWS(Closed, guard.left());
    THROWS(Closed, guard.destroyed());
    THROWS(Closed, guard.gone());
    THROWS(Closed, guard.targets(Key::Process, "p0"));
    THROWS(Closed, guard.process("p0"));
    THROWS(Closed, guard.process_count());
    THROWS(Closed, guard.is_acked(0));
    THROWS(Closed, guard.keeper(0));
    THROWS(Closed, guard.sight());
    THROWS(Closed, guard.bears());
    THROWS(Closed, guard.journal_len());
    THROWS(Closed, guard.entry(0));
    THROWS(Closed, guard.audit());
    guard.close();
    EQUAL(guard.is_open(), false);
}

/* A guard moves with its journal, and leaves a closed one. */
static void moves()
{
    Guard first(SIX);
    (void)first.kill(1, Key::Zone, "z0", Kind::KillInstantly);
    Guard second(std::move(first));
    assert_closed(first);
    EQUAL(second.journal_len(), 1);
    Guard third(THREE);
    third = std::move(second);
    assert_closed(second);
    EQUAL(third.journal_len(), 1);
    Guard &same = third;
    third = std::move(same);
    HOLDS(third.is_open());
    EQUAL(third.journal_len(), 1);
    first = std::move(third);
    HOLDS(first.is_destroyed(0));
    third = std::move(second);
    assert_closed(third);
    std::vector<Guard> guards;
    guards.push_back(std::move(first));
    for (int i = 0; i < 9; i++)
        guards.emplace_back(SIX);
    EQUAL(guards.front().journal_len(), 1);
    EQUAL(guards.back().journal_len(), 0);
    std::swap(guards.front(), guards.back());
    EQUAL(guards.back().journal_len(), 1);
    guards.back().close();
    assert_closed(guards.back());
}

/* An entry whose line is longer than the first buffer. */
static void long_lines()
{
    Guard guard(SIX);
    const std::string payload(512, 'a');
    guard.act("{\"by\":0,\"act\":{\"form\":{\"members\":[0,2],\"policy\":0}}}");
    const std::string line =
        guard.act("{\"by\":0,\"act\":{\"begin\":{\"payload\":\"" + payload + "\",\"team\":0}}}");
    HOLDS(line.size() > 512);
    HOLDS(guard.entry(1) == line);
    HOLDS(guard.audit() == FY_AUDIT_HEADER + guard.entry(0) + line);
}

/* The audit of a guard that this thread opens. */
static std::string played(uint32_t first)
{
    Guard guard(SIX);
    for (uint32_t i = 0; i < 500; i++) {
        const uint32_t process = (first + i) % 6;
        const std::string name = "p" + std::to_string(process);
        if (guard.kill(1, Key::Process, name, Kind::RebootAndDelete, Kind::RebootProcess, i).struck)
            guard.up(0, process);
    }
    return guard.audit();
}

/* Eight guards in eight threads, each as if it were alone. */
static void threads()
{
    std::string beside[8];
    std::vector<std::thread> running;
    for (uint32_t i = 0; i < 8; i++)
        running.emplace_back([&beside, i] { beside[i] = played(i); });
    for (std::thread &thread : running)
        thread.join();
    for (uint32_t i = 0; i < 8; i++) {
        HOLDS(beside[i].size() > 100000);
        HOLDS(beside[i] == played(i));
    }
}

/* What an error says, also of a number that this header doesn't know. */
static void texts()
{
    HOLDS(std::string_view(Error(Status::JournalFull).what()) ==
          "the journal has as many entries as the cluster file allows");
    HOLDS(std::string_view(Error(Status::Refused, Refusal::IsUp).what()) ==
          "refused: the process is up already");
    HOLDS(std::string_view(Error(static_cast<Status>(23)).what()) == "unknown to this header");
    const Error longest(Status::ConfigName, Part::JournalLimit, UINT64_MAX);
    HOLDS(std::string_view(longest.what()) ==
          "config: Name JournalLimit 18446744073709551615: a text of the cluster file is no name, "
          "or names what is taken or isn't there");
    HOLDS(to_string(static_cast<Part>(0)).empty() && to_string(static_cast<Part>(7)) == "unknown");
    HOLDS(to_string(static_cast<Refusal>(26)) == "unknown");
    HOLDS(to_string(static_cast<Key>(UINT32_MAX)) == "unknown");
}

/* The list, of which each place from the last down to the second is swapped with the one that the
 * next word gives. */
static std::vector<uint32_t> shuffled(std::vector<uint32_t> list, std::vector<uint32_t> drawn)
{
    for (size_t last = list.size(); last-- > 1;)
        std::swap(list[last], list[drawn[list.size() - 1 - last] % (last + 1)]);
    return list;
}

static Order order_of(OrderAct act, uint32_t process, uint64_t ticks)
{
    return {act, Key::Process, "p" + std::to_string(process), {}, {}, 0, ticks};
}

/* The first of the published words, and plans that are drawn from words by the rules. */
static void plans()
{
    HOLDS(words(1, 0, 2) == std::vector<uint32_t>({0xa0e95ecf, 0x61a94a49}));
    HOLDS(words(0, 1, 1) == std::vector<uint32_t>({0xb34b8f2b}));
    HOLDS(words(0, 0, 0).empty());
    Guard guard(SIX);
    const Guard &asked = guard;
    for (uint64_t seed = 0; seed < 50; seed++) {
        const std::vector<uint32_t> drawn = words(seed, 1, 12);
        std::vector<uint32_t> chosen;
        for (uint32_t process = 0; process < 6; process++)
            if (drawn[process] % 2 == 1)
                chosen.push_back(process);
        std::vector<Order> wanted;
        for (uint32_t process : chosen)
            wanted.push_back(order_of(OrderAct::Clog, process, 10));
        for (uint32_t process : shuffled(chosen, {drawn.begin() + 6, drawn.end()}))
            wanted.push_back(order_of(OrderAct::Unclog, process, 0));
        HOLDS(asked.swizzle_plan(seed, 1) == wanted);
        wanted.clear();
        for (uint32_t machine : shuffled({0, 1, 2, 3, 4, 5}, drawn))
            wanted.push_back({OrderAct::Kill, Key::Machine, "m" + std::to_string(machine),
                              Kind::RebootAndDelete, Kind::RebootProcess, 5, 0});
        HOLDS(asked.attrition_plan(seed, 1, 9, 0, Kind::RebootAndDelete, Kind::RebootProcess, 5) ==
              wanted);
        wanted.resize(2);
        for (Order &order : wanted) {
            order.kind = Kind::KillInstantly;
            order.floor = Kind::Reboot;
            order.tear = 0;
        }
        const std::vector<Order> two = asked.attrition_plan(seed, 1);
        HOLDS(two == wanted);
        HOLDS(two.front() != two.back());
    }
    THROWS(Argument, (void)asked.attrition_plan(0, 1, 2, 1, static_cast<Kind>(5)));
    THROWS(Floor, (void)asked.attrition_plan(0, 1, 2, 1, Kind::Reboot, Kind::KillInstantly));
    EQUAL(asked.journal_len(), 0);
    granted = 0;
    THROWS(NoMemory, (void)words(0, 0, 9));
    THROWS(NoMemory, (void)asked.swizzle_plan(0, 1));
    THROWS(NoMemory, (void)asked.attrition_plan(0, 1));
    granted = ALL;
    THROWS(NoMemory, (void)words(0, 0, SIZE_MAX));
    guard.close();
    THROWS(Closed, (void)asked.swizzle_plan(0, 1));
    THROWS(Closed, (void)asked.attrition_plan(0, 1));
}

/* The orders of a simulation, by its rules: processes in turn, and a first round of an
 * attrition. */
static void simulated_plans()
{
    Guard guard(SIX);
    const std::vector<Order> rolled = guard.plan_orders(Plan::Rolling, 7, 1, 13);
    const Kind kinds[] = {Kind::RebootProcess, Kind::Reboot, Kind::RebootAndDelete};
    for (std::size_t turn = 0; turn < 13; turn++)
        HOLDS(rolled.at(turn) ==
              (Order{OrderAct::Kill, Key::Process, "p" + std::to_string(turn % 6), kinds[turn / 6],
                     Kind::RebootProcess, 0, 0}));
    bool rests = false;
    for (uint64_t seed = 0; seed < 64; seed++) {
        const std::vector<uint32_t> drawn = words(seed, 3, 8);
        const uint64_t stream = uint64_t{drawn[7]} << 32 | drawn[6];
        HOLDS(
            guard.plan_orders(Plan::Attrition, seed, 3, 6) ==
            guard.attrition_plan(seed, stream, 6, 0, Kind::RebootAndDelete, Kind::Reboot, stream));
        const bool none = guard.plan_orders(Plan::Mixed, seed, 3, 1).at(0).act == OrderAct::None;
        EQUAL(none, drawn[0] % 64 == 63);
        rests = rests || none;
    }
    EQUAL(rests, true);
    EQUAL(guard.plan_orders(Plan::Mixed, 0, 0, 0).size(), 0);
    EQUAL(guard.journal_len(), 0);
    THROWS(Argument, (void)guard.plan_orders(static_cast<Plan>(5), 0, 0, 1));
    guard.close();
    THROWS(Closed, (void)guard.plan_orders(Plan::Mixed, 0, 0, 1));
}

/* A plan of more orders than the first buffer has room for. */
static void long_plans()
{
    std::string config = "journal_limit = 9\npolicies = [\"One()\"]\nprocess = [";
    for (int process = 0; process < 200; process++) {
        const std::string number = std::to_string(process);
        config +=
            "{processid = \"p" + number + "\", machineid = \"m" + number + "\", zoneid = \"z\"},";
    }
    config += "]\nactor = [{role = \"fault\"}]\n";
    const Guard guard{config};
    const std::vector<Order> orders = guard.attrition_plan(3, 0, 150, 0);
    EQUAL(orders.size(), 150);
    std::set<std::string> machines;
    for (const Order &order : orders)
        machines.insert(order.value);
    EQUAL(machines.size(), 150);
}

static_assert(!std::is_copy_constructible_v<Check> && !std::is_copy_assignable_v<Check>);
static_assert(std::is_nothrow_move_constructible_v<Check> &&
              std::is_nothrow_move_assignable_v<Check>);

static const std::string HEADER = FY_AUDIT_HEADER;

/* The audit of a guard is legal; with a reply that goes too far, its entry is the first bad one. */
static void checks()
{
    Guard guard(SIX);
    Check check(SIX);
    HOLDS(check.is_open());
    THROWS(NoHeader, (void)check.finding());
    THROWS(NoHeader, (void)check.line("{\"audit\":3}\n"));
    HOLDS(check.line(HEADER) == std::nullopt);
    HOLDS(check.finding() == Finding());
    HOLDS(guard.kill(1, Key::Zone, "z0", Kind::KillInstantly, Kind::Reboot).struck ==
          Kind::KillInstantly);
    HOLDS(guard.kill(1, Key::Zone, "z1", Kind::KillInstantly, Kind::Reboot).struck == Kind::Reboot);
    HOLDS(check.line(guard.entry(0)) == std::nullopt);
    HOLDS(check.finding().count == 1);
    THROWS(LineSyntax, (void)check.line(guard.entry(0)));
    THROWS(LineSyntax, (void)check.line(std::string_view()));
    THROWS(LineTooLong, (void)check.line(std::string(65537, ' ')));
    std::string bad = guard.entry(1);
    const std::string struck = "\"struck\":\"Reboot\"";
    bad.replace(bad.find(struck), struck.size(), "\"struck\":\"KillInstantly\"");
    HOLDS(check.line(bad) == 1U);
    HOLDS(check.finding().first_bad == 1U && check.finding().count == 2);
    HOLDS(check.finding() != Finding());
    Check moved(std::move(check));
    EQUAL(check.is_open(), false);
    THROWS(Closed, (void)check.line(HEADER));
    THROWS(Closed, (void)check.finding());
    HOLDS(moved.finding().count == 2);
    Check other(SIX);
    other = std::move(moved);
    HOLDS(other.finding().count == 2 && !moved.is_open());
    granted = 0;
    THROWS(NoMemory, Check{SIX});
    granted = ALL;
    try {
        Check none(NO_NAME);
    } catch (const Error &error) {
        HOLDS(error.status() == Status::ConfigName && error.part() == Part::Process);
        HOLDS(error.place() == 1U);
    }
    other.close();
    other.close();
    EQUAL(other.is_open(), false);
}

/* Lines of nearly 65,536 bytes, of a stranger's that isn't told so, until they are too many. */
static void long_audit()
{
    Check check(SIX);
    check.line(HEADER);
    const std::string front = "{\"act\":{\"begin\":{\"payload\":\"" + std::string(65000, 'a');
    size_t bytes = HEADER.size();
    for (uint32_t at = 0;; at++) {
        const std::string line = front + "\",\"team\":0}},\"at\":" + std::to_string(at) +
                                 ",\"by\":9,\"reply\":{\"no\":[\"NoTeam\"]}}\n";
        bytes += line.size();
        if (bytes > 268435456) {
            THROWS(AuditTooLong, (void)check.line(line));
            EQUAL(check.finding().count, at);
            break;
        }
        if (check.line(line) != 0U)
            HOLDS(false);
    }
}

int main()
{
    worked_kill();
    rules();
    refusals();
    sets();
    states();
    judged();
    by_number();
    which_may_be_killed();
    how_much_may_be_lost();
    resets();
    copies();
    goes_on();
    names_and_records();
    numbered_records();
    numbered_rights();
    numbered_errors();
    errors();
    want_of_memory();
    cluster_files();
    want_of_memory_for_a_fault();
    versions();
    moves();
    long_lines();
    threads();
    texts();
    plans();
    simulated_plans();
    long_plans();
    checks();
    long_audit();
    /* Each status but Done, Short, which no call answers, and Unwritten, which nothing brings
     * about. */
    EQUAL(met.size(), static_cast<size_t>(Status::Refuted) - 2);
    return ended("cases");
}

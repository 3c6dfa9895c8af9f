/* faultyard for C++17: a guard decides which faults a cluster tolerates. Header only.
 *
 *     using namespace faultyard;
 *     Guard guard(text_of_the_cluster_file);
 *     Verdict verdict = guard.kill(1, Key::Zone, "z0", Kind::KillInstantly);
 *     if (verdict.struck == Kind::KillInstantly) ...
 *
 * It stands on faultyard.h. Link with libfaultyard.a, or with -lfaultyard.
 *
 * A call that did not do what it says throws `Error`, and nothing else: an unread result would let
 * a test go on as if the act were made. A refused act throws too, with `Status::Refused` and its
 * reason. A kill that a rule bars is an answer, and throws nothing.
 *
 * A guard may move to another thread, and one call at a time is made with it: threads that share
 * one take turns, by a mutex. Guards of different threads share nothing. No call may come from a
 * signal handler, nor from a child that a process with threads forked.
 */
#ifndef FAULTYARD_HPP
#define FAULTYARD_HPP

#include "faultyard.h"

#include <bitset>
#include <cstddef>
#include <cstdint>
#include <cstdio>
#include <exception>
#include <new>
#include <optional>
#include <stdexcept>
#include <string>
#include <string_view>
#include <utility>
#include <vector>

namespace faultyard {

/* A version, as 1.0.0. */
struct Version {
    std::uint32_t major = 0;
    std::uint32_t minor = 0;
    std::uint32_t patch = 0;

    friend constexpr bool operator==(const Version &one, const Version &other) noexcept
    {
        return one.major == other.major && one.minor == other.minor && one.patch == other.patch;
    }

    friend constexpr bool operator!=(const Version &one, const Version &other) noexcept
    {
        return !(one == other);
    }
};

/* The version of the library that is linked or loaded. FAULTYARD_VERSION is that of the header. */
inline Version version() noexcept
{
    const std::uint32_t number = fy_version();
    return {number / 10000, number / 100 % 100, number % 100};
}

/* The part of a process's place by which an order names it. */
enum class Key : std::uint32_t {
    Process = FY_PROCESS,
    Machine = FY_MACHINE,
    Zone = FY_ZONE,
    DataHall = FY_DATA_HALL,
    DataCenter = FY_DATA_CENTER,
};

/* What a kill does to a process, from the mildest to the hardest. */
enum class Kind : std::uint32_t {
    RebootProcess = FY_REBOOT_PROCESS,      /* Down; nothing on its disk is lost. */
    Reboot = FY_REBOOT,                     /* Down; what its disk hasn't synced may be lost. */
    RebootAndDelete = FY_REBOOT_AND_DELETE, /* Down, and its disk is emptied. */
    KillInstantly = FY_KILL_INSTANTLY,      /* Gone for good, and its disk is emptied. */
};

/* Why the kind that was ordered is barred: the first rule that holds. */
enum class Rule : std::uint32_t {
    /* No process that is left has the value. */
    NoTarget = FY_NO_TARGET,
    /* No grant of the actor covers the process that is named. */
    NoGrant = FY_NO_GRANT,
    /* The process that is named is protected. */
    Protected = FY_PROTECTED,
    /* The destroyed processes would satisfy the policy that is named. */
    TooManyDestroyed = FY_TOO_MANY_DESTROYED,
    /* The processes left wouldn't satisfy the policy that is named. */
    TooFewLeft = FY_TOO_FEW_LEFT,
};

/* Why an act is refused. faultyard.h says each in words, and so does `Error::what`. */
enum class Refusal : std::uint32_t {
    Stranger = FY_STRANGER,
    WrongRole = FY_WRONG_ROLE,
    TooMany = FY_TOO_MANY,
    NoPolicy = FY_NO_POLICY,
    NoProcess = FY_NO_PROCESS,
    Gone = FY_GONE,
    TeamShort = FY_TEAM_SHORT,
    NoTeam = FY_NO_TEAM,
    Payload = FY_PAYLOAD,
    NetFull = FY_NET_FULL,
    NoMessage = FY_NO_MESSAGE,
    Clogged = FY_CLOGGED,
    NotUp = FY_NOT_UP,
    NoRecord = FY_NO_RECORD,
    NotMember = FY_NOT_MEMBER,
    Acked = FY_ACKED,
    IsUp = FY_IS_UP,
    ClockEnd = FY_CLOCK_END,
    NoActor = FY_NO_ACTOR,
    Full = FY_FULL,
    NoSuch = FY_NO_SUCH,
    NoCopy = FY_NO_COPY,
    IsMember = FY_IS_MEMBER,
    NotDestroyed = FY_NOT_DESTROYED,
    StillNeeds = FY_STILL_NEEDS,
};

/* A part of a cluster file, in the order in which they are looked at. */
enum class Part : std::uint32_t {
    JournalLimit = FY_PART_JOURNAL_LIMIT, /* journal_limit */
    Policies = FY_PART_POLICIES,          /* policies */
    Process = FY_PART_PROCESS,            /* process */
    Actor = FY_PART_ACTOR,                /* actor */
    Protect = FY_PART_PROTECT,            /* protect */
    Unknown = FY_PART_UNKNOWN,            /* A key at the top that is none of these. */
};

/* How a call ended. `Error` has any but `Done` and `Short`. */
enum class Status : std::uint32_t {
    Done = FY_DONE,
    NoMemory = FY_NO_MEMORY,
    JournalFull = FY_JOURNAL_FULL,
    Refused = FY_REFUSED,
    Short = FY_SHORT,
    Unwritten = FY_UNWRITTEN,
    NoEntry = FY_NO_ENTRY,
    Argument = FY_ARGUMENT,
    Name = FY_NAME,
    Floor = FY_FLOOR,
    LineTooLong = FY_LINE_TOO_LONG,
    LineSyntax = FY_LINE_SYNTAX,
    ConfigTooLong = FY_CONFIG_TOO_LONG,
    ConfigToml = FY_CONFIG_TOML,
    ConfigField = FY_CONFIG_FIELD,
    ConfigLimit = FY_CONFIG_LIMIT,
    ConfigName = FY_CONFIG_NAME,
    ConfigPolicy = FY_CONFIG_POLICY,
    ConfigUnmet = FY_CONFIG_UNMET,
    Closed = FY_CLOSED,
    NoHeader = FY_NO_HEADER,
    AuditTooLong = FY_AUDIT_TOO_LONG,
    Refuted = FY_REFUTED,
};

/* What an order of a plan asks for. */
enum class OrderAct : std::uint32_t {
    None = FY_ORDER_NONE,
    Kill = FY_ORDER_KILL,
    Clog = FY_ORDER_CLOG,
    Unclog = FY_ORDER_UNCLOG,
};

/* How a fault actor of a simulation draws its orders. */
enum class Plan : std::uint32_t {
    Mixed = FY_PLAN_MIXED,
    Attrition = FY_PLAN_ATTRITION,
    Swizzle = FY_PLAN_SWIZZLE,
    Rolling = FY_PLAN_ROLLING,
};

/* A set of kinds of kill and of clogging, as Kinds::Reboot | Kinds::Clog. */
enum class Kinds : std::uint32_t {
    None = 0,
    RebootProcess = FY_KINDS_REBOOT_PROCESS,
    Reboot = FY_KINDS_REBOOT,
    RebootAndDelete = FY_KINDS_REBOOT_AND_DELETE,
    KillInstantly = FY_KINDS_KILL_INSTANTLY,
    Clog = FY_KINDS_CLOG,
    All = FY_KINDS_ALL,
};

constexpr Kinds operator|(Kinds one, Kinds other) noexcept
{
    return static_cast<Kinds>(static_cast<std::uint32_t>(one) | static_cast<std::uint32_t>(other));
}

/* Whether the data of the process goes. */
constexpr bool empties_disk(Kind kind) noexcept
{
    return kind == Kind::RebootAndDelete || kind == Kind::KillInstantly;
}

/* Whether the process never comes back. */
constexpr bool is_final(Kind kind) noexcept
{
    return kind == Kind::KillInstantly;
}

namespace detail {

inline constexpr std::string_view KEYS[] = {
    "", "processid", "machineid", "zoneid", "data_hall", "dcid",
};

inline constexpr std::string_view KINDS[] = {
    "", "RebootProcess", "Reboot", "RebootAndDelete", "KillInstantly",
};

inline constexpr std::string_view RULES[] = {
    "", "NoTarget", "NoGrant", "Protected", "TooManyDestroyed", "TooFewLeft",
};

inline constexpr std::string_view PARTS[] = {
    "", "JournalLimit", "Policies", "Process", "Actor", "Protect", "Unknown",
};

/* The words of the statuses from ConfigTooLong on in fault lines. */
inline constexpr std::string_view CONFIG_FAULTS[] = {
    "TooLong", "Toml", "Field", "Limit", "Name", "Policy", "PolicyUnmet",
};

/* A word, and what `Error::what` answers for it. */
struct Text {
    std::string_view word;
    const char *says;
};

inline constexpr Text REFUSALS[] = {
    {"", ""},
    {"Stranger", "refused: there is no actor with the number of the one that acts"},
    {"WrongRole", "refused: the actor's role may not make this act"},
    {"TooMany", "refused: there are as many teams, or records, as there may be"},
    {"NoPolicy", "refused: there is no policy with this number"},
    {"NoProcess", "refused: there is no process with this number"},
    {"Gone", "refused: the process is gone for good"},
    {"TeamShort", "refused: the members don't satisfy the policy"},
    {"NoTeam", "refused: there is no team with this number"},
    {"Payload", "refused: the payload has more than 256 bytes"},
    {"NetFull", "refused: there would be too many messages in flight"},
    {"NoMessage", "refused: no message in flight has this number"},
    {"Clogged", "refused: the message's process is clogged"},
    {"NotUp", "refused: the process isn't up"},
    {"NoRecord", "refused: there is no record with this number"},
    {"NotMember", "refused: the process is no member of the record's team"},
    {"Acked", "refused: the record is acknowledged"},
    {"IsUp", "refused: the process is up already"},
    {"ClockEnd", "refused: the time would be past its end"},
    {"NoActor", "refused: there is no actor with the number that the act names"},
    {"Full", "refused: there are as many grants as there may be"},
    {"NoSuch", "refused: the actor has no grant at this place"},
    {"NoCopy", "refused: the process hasn't synced the record that is to be copied"},
    {"IsMember", "refused: the process is a member of the team already"},
    {"NotDestroyed", "refused: the process isn't destroyed"},
    {"StillNeeds", "refused: the process lacks an acknowledged record of its team"},
};

inline constexpr Text STATUSES[] = {
    {"Done", "done"},
    {"NoMemory", "there was no memory"},
    {"JournalFull", "the journal has as many entries as the cluster file allows"},
    {"Refused", "refused"},
    {"Short", "the buffer is too short"},
    {"Unwritten", "the act is made and stands in the journal, but its line could not be written"},
    {"NoEntry", "the journal has no entry at this place"},
    {"Argument", "there is no such key, kind or floor, or process to kill, members don't rise, "
                 "or a payload is too long"},
    {"Name", "the value of the target is no name"},
    {"Floor", "the floor of the kill is above its kind"},
    {"LineTooLong", "the line has more than 65,536 bytes"},
    {"LineSyntax", "the line is no command of a script, or no entry of an audit"},
    {"ConfigTooLong", "the cluster file has more than 1,048,576 bytes"},
    {"ConfigToml", "the cluster file is no TOML document in UTF-8"},
    {"ConfigField", "a key of the cluster file is missing, unknown or of another type, or a word "
                    "is none of those that may stand there"},
    {"ConfigLimit", "a number or a length of the cluster file is outside its range"},
    {"ConfigName", "a text of the cluster file is no name, or names what is taken or isn't there"},
    {"ConfigPolicy", "a text of the cluster file is no policy"},
    {"ConfigUnmet", "all processes of the cluster file together don't satisfy one of its policies"},
    {"Closed", "the guard is closed"},
    {"NoHeader", "the first line of the audit is no header of a version"},
    {"AuditTooLong", "the lines of the audit have more than 268,435,456 bytes together"},
    {"Refuted", "an entry of the audit isn't what the rules give"},
};

/* The row of a number, or the other row where it has none, as a number by a cast may. */
template <typename Row, std::size_t Count, typename Number>
constexpr Row row_of(const Row (&rows)[Count], Number number, Row other) noexcept
{
    const auto at = static_cast<std::size_t>(number);
    return at < Count ? rows[at] : other;
}

inline constexpr std::string_view NO_WORD = "unknown";
inline constexpr Text NO_TEXT = {NO_WORD, "unknown to this header"};

/* The bytes of a text; never null, which the library isn't to be given. */
inline const std::uint8_t *bytes(std::string_view text) noexcept
{
    return reinterpret_cast<const std::uint8_t *>(text.data() == nullptr ? "" : text.data());
}

} // namespace detail

/* The word that scripts, audits and fault lines have for it; of a status its name here. */
constexpr std::string_view to_string(Key key) noexcept
{
    return detail::row_of(detail::KEYS, key, detail::NO_WORD);
}

constexpr std::string_view to_string(Kind kind) noexcept
{
    return detail::row_of(detail::KINDS, kind, detail::NO_WORD);
}

constexpr std::string_view to_string(Rule rule) noexcept
{
    return detail::row_of(detail::RULES, rule, detail::NO_WORD);
}

constexpr std::string_view to_string(Refusal refusal) noexcept
{
    return detail::row_of(detail::REFUSALS, refusal, detail::NO_TEXT).word;
}

constexpr std::string_view to_string(Part part) noexcept
{
    return detail::row_of(detail::PARTS, part, detail::NO_WORD);
}

constexpr std::string_view to_string(Status status) noexcept
{
    return detail::row_of(detail::STATUSES, status, detail::NO_TEXT).word;
}

/* What a call throws that did not do what it says. But for Refused and Unwritten nothing changed
 * then. It doesn't allocate. */
class Error : public std::exception {
public:
    explicit Error(Status status, std::optional<Refusal> refusal = std::nullopt) noexcept
        : status_(status), refusal_(refusal)
    {
    }

    /* Of a refused act, with what the refusal names. */
    Error(Status status, Refusal refusal, std::optional<std::uint64_t> named) noexcept
        : status_(status), refusal_(refusal), named_(named)
    {
    }

    /* Of a cluster file, with where its fault is. */
    Error(Status status, std::optional<Part> part, std::optional<std::uint64_t> place) noexcept
        : status_(status), part_(part), place_(place)
    {
        write_fault();
    }

    /* Of an audit, with the place of its first bad entry. */
    static Error refuted(std::uint32_t entry) noexcept
    {
        Error error(Status::Refuted);
        error.place_ = entry;
        return error;
    }

    Status status() const noexcept { return status_; }

    /* Why the act is refused, where the status is Refused. */
    std::optional<Refusal> refusal() const noexcept { return refusal_; }

    /* The policy of TeamShort and the record of StillNeeds, where `replace` or `form` is refused by
     * it; `needed` has that of `heal`. */
    std::optional<std::uint64_t> named() const noexcept { return named_; }

    /* The part of the cluster file that the fault is in, where the status is ConfigField to
     * ConfigUnmet. */
    std::optional<Part> part() const noexcept { return part_; }

    /* The place in that part, from 0: of the process, actor or protection where the status is
     * ConfigName, of the policy where it is ConfigPolicy or ConfigUnmet. Of an audit, where the
     * status is Refuted, that of its first bad entry. */
    std::optional<std::uint64_t> place() const noexcept { return place_; }

    /* What is wrong. Of a cluster file the program's fault line, and what it means. */
    const char *what() const noexcept override
    {
        if (fault_[0] != '\0')
            return fault_;
        return refusal_ ? detail::row_of(detail::REFUSALS, *refusal_, detail::NO_TEXT).says
                        : detail::row_of(detail::STATUSES, status_, detail::NO_TEXT).says;
    }

private:
    void write_fault() noexcept
    {
        const auto at = static_cast<std::uint32_t>(status_) - FY_CONFIG_TOO_LONG;
        const std::string_view word = detail::row_of(detail::CONFIG_FAULTS, at, detail::NO_WORD);
        const bool is_of_part = status_ == Status::ConfigField || status_ == Status::ConfigLimit ||
                                status_ == Status::ConfigName;
        const std::string_view part = is_of_part && part_ ? to_string(*part_) : "";
        char place[24] = "";
        if (place_)
            std::snprintf(place, sizeof place, " %llu", static_cast<unsigned long long>(*place_));
        std::snprintf(fault_, sizeof fault_, "config: %s%s%s%s: %s", word.data(),
                      part.empty() ? "" : " ", part.data(), place,
                      detail::row_of(detail::STATUSES, status_, detail::NO_TEXT).says);
    }

    Status status_;
    std::optional<Refusal> refusal_;
    std::optional<std::uint64_t> named_;
    std::optional<Part> part_;
    std::optional<std::uint64_t> place_;
    /* It has room for each word and text above, and for a place of 20 digits. */
    char fault_[192] = "";
};

/* The answer to a kill. */
struct Verdict {
    /* What to do to each process of the target that isn't gone; nothing where it is empty. */
    std::optional<Kind> struck;
    /* What bars the kind that was ordered; empty where that struck. */
    std::optional<Rule> rule;
    /* The process (NoGrant, Protected) or the policy (TooManyDestroyed, TooFewLeft) it names. */
    std::optional<std::uint64_t> named;

    friend constexpr bool operator==(const Verdict &one, const Verdict &other) noexcept
    {
        return one.struck == other.struck && one.rule == other.rule && one.named == other.named;
    }

    friend constexpr bool operator!=(const Verdict &one, const Verdict &other) noexcept
    {
        return !(one == other);
    }
};

/* The answer to a clog, or to the end of one. */
struct Ruling {
    /* What bars it; empty where it is done. */
    std::optional<Rule> rule;
    /* The process (NoGrant, Protected) that the rule names. */
    std::optional<std::uint64_t> named;

    friend constexpr bool operator==(const Ruling &one, const Ruling &other) noexcept
    {
        return one.rule == other.rule && one.named == other.named;
    }

    friend constexpr bool operator!=(const Ruling &one, const Ruling &other) noexcept
    {
        return !(one == other);
    }
};

/* A record that was begun. */
struct Begun {
    std::uint32_t record = 0;
    /* The store message of the first member. Those of the others have the numbers behind it. */
    std::uint64_t first = 0;

    friend constexpr bool operator==(const Begun &one, const Begun &other) noexcept
    {
        return one.record == other.record && one.first == other.first;
    }

    friend constexpr bool operator!=(const Begun &one, const Begun &other) noexcept
    {
        return !(one == other);
    }
};

/* Writes that were synced. */
struct Synced {
    /* How many. */
    std::uint64_t count = 0;
    /* The acknowledgement of the first. Those of the others have the numbers behind it. */
    std::uint64_t first = 0;

    friend constexpr bool operator==(const Synced &one, const Synced &other) noexcept
    {
        return one.count == other.count && one.first == other.first;
    }

    friend constexpr bool operator!=(const Synced &one, const Synced &other) noexcept
    {
        return !(one == other);
    }
};

/* What a deliver delivered. */
enum class Delivered {
    Store, /* A store message. */
    Mark,  /* An acknowledgement of a record that isn't acknowledged yet. */
    Acked, /* An acknowledgement of a record that is acknowledged now. */
};

/* A set of processes by their numbers. */
using Processes = std::bitset<std::size_t{64} * FY_SET_WORDS>;

/* The time, and what there is to do next in the simulated cluster. */
struct Sight {
    /* The time, in ticks. */
    std::uint64_t now = 0;
    /* The least message that a deliver would accept now. */
    std::optional<std::uint64_t> deliverable;
    /* The least process that is up and has unsynced writes. */
    std::optional<std::uint32_t> unsynced;
    /* The least process that is neither up nor gone. */
    std::optional<std::uint32_t> sleeping;

    friend constexpr bool operator==(const Sight &one, const Sight &other) noexcept
    {
        return one.now == other.now && one.deliverable == other.deliverable &&
               one.unsynced == other.unsynced && one.sleeping == other.sleeping;
    }

    friend constexpr bool operator!=(const Sight &one, const Sight &other) noexcept
    {
        return !(one == other);
    }
};

/* The state of a process. */
struct State {
    /* It runs. */
    bool up = false;
    /* Its messages are held back. */
    bool clogged = false;
    /* It was struck by a kind that empties its disk, and not healed since. */
    bool destroyed = false;
    /* It was killed for good. */
    bool gone = false;

    friend constexpr bool operator==(const State &one, const State &other) noexcept
    {
        return one.up == other.up && one.clogged == other.clogged &&
               one.destroyed == other.destroyed && one.gone == other.gone;
    }

    friend constexpr bool operator!=(const State &one, const State &other) noexcept
    {
        return !(one == other);
    }
};

/* How much of the cluster may still be lost: any so many processes together, whichever they are. */
struct Borne {
    /* So many may be emptied. */
    std::uint32_t emptied = 0;
    /* So many may be killed for good. */
    std::uint32_t gone = 0;
    /* Whether some set of one more may not be emptied; where none was found, more may be borne. */
    bool emptied_exact = false;
    /* The same of those killed for good. */
    bool gone_exact = false;

    friend constexpr bool operator==(const Borne &one, const Borne &other) noexcept
    {
        return one.emptied == other.emptied && one.gone == other.gone &&
               one.emptied_exact == other.emptied_exact && one.gone_exact == other.gone_exact;
    }

    friend constexpr bool operator!=(const Borne &one, const Borne &other) noexcept
    {
        return !(one == other);
    }
};

/* An order of a plan that is drawn from a seed. */
struct Order {
    OrderAct act = OrderAct::Kill;
    /* The target. Of a swizzle it is a process by its processid, of an attrition a machine. */
    Key key = Key::Process;
    std::string value;
    /* The kind and the floor of a kill; empty for the other acts. */
    std::optional<Kind> kind;
    std::optional<Kind> floor;
    /* Which unsynced writes a reboot keeps. */
    std::uint64_t tear = 0;
    /* For how many ticks a clog lasts. */
    std::uint64_t ticks = 0;

    friend bool operator==(const Order &one, const Order &other) noexcept
    {
        return one.act == other.act && one.key == other.key && one.value == other.value &&
               one.kind == other.kind && one.floor == other.floor && one.tear == other.tear &&
               one.ticks == other.ticks;
    }

    friend bool operator!=(const Order &one, const Order &other) noexcept
    {
        return !(one == other);
    }
};

/* The first words of a stream of a seed: pseudo-random words of ChaCha with eight rounds. A swarm's
 * actor draws from the stream of its number. Throws NoMemory. */
inline std::vector<std::uint32_t> words(std::uint64_t seed, std::uint64_t stream, std::size_t count)
{
    try {
        /* The library takes no null pointer, also for no words. */
        std::vector<std::uint32_t> drawn(count == 0 ? 1 : count);
        const std::uint32_t status = fy_words(seed, stream, drawn.data(), count);
        if (status != FY_DONE)
            throw Error(static_cast<Status>(status));
        drawn.resize(count);
        return drawn;
    } catch (const std::bad_alloc &) {
        throw Error(Status::NoMemory);
    } catch (const std::length_error &) {
        throw Error(Status::NoMemory);
    }
}

class Check;

/* A guard. It is moved and never copied. After `close`, and after it was moved from, each call
 * throws Closed.
 *
 * The const calls write nothing of it, so they may be made at once while no other call is. */
class Guard {
public:
    /* Opens a guard of a cluster in which nothing happened yet, by the text of a cluster file.
     * Throws NoMemory, and ConfigTooLong to ConfigUnmet, the first that holds, with its part and
     * place. */
    explicit Guard(std::string_view config)
    {
        const std::uint32_t status = fy_open(detail::bytes(config), config.size(), &guard_);
        if (status >= FY_CONFIG_TOO_LONG && status <= FY_CONFIG_UNMET)
            throw fault_of(config, status);
        require(status);
    }

    /* Opens a guard that goes on where an audit ends, by its whole text: its journal is that of the
     * audit, whose acts are made once more.
     * Throws in order what the constructor throws, AuditTooLong, NoHeader, also for an audit of the
     * first version; then of the first line that is at fault LineTooLong, LineSyntax (half a last
     * line too), or Refuted with its place. NoMemory in place of any. */
    [[nodiscard]] static Guard open_after(std::string_view config, std::string_view audit)
    {
        Guard guard;
        std::uint32_t bad = FY_NO_BAD_ENTRY;
        const std::uint32_t status =
            fy_open_after(detail::bytes(config), config.size(), detail::bytes(audit), audit.size(),
                          &guard.guard_, &bad);
        if (status >= FY_CONFIG_TOO_LONG && status <= FY_CONFIG_UNMET)
            throw fault_of(config, status);
        if (status == FY_REFUTED)
            throw Error::refuted(bad);
        require(status);
        return guard;
    }

    Guard(Guard &&other) noexcept : guard_(std::exchange(other.guard_, fy_guard{nullptr})) {}

    Guard &operator=(Guard &&other) noexcept
    {
        if (this != &other) {
            close();
            guard_ = std::exchange(other.guard_, fy_guard{nullptr});
        }
        return *this;
    }

    Guard(const Guard &) = delete;
    Guard &operator=(const Guard &) = delete;
    ~Guard() { close(); }

    /* Frees what it holds. A closed guard stays closed. */
    void close() noexcept { fy_guard_close(&guard_); }

    bool is_open() const noexcept { return fy_guard_is_open(&guard_) != 0; }

    /* Puts the guard back to where nothing happened yet, without reading its cluster file again.
     * Throws Closed, NoMemory. */
    void reset() { require(fy_reset(opened())); }

    /* A second guard with the same journal, to look ahead: what is done with one changes nothing of
     * the other. The state is copied, and no act of the journal is made again.
     * Throws Closed, NoMemory. */
    [[nodiscard]] Guard try_copy() const
    {
        Guard other;
        require(fy_try_copy(opened(), &other.guard_));
        return other;
    }

    /* Orders a kill of the processes whose key has the value: by the kind, or where that is barred
     * by a milder one down to the floor. Bit i of `tear` is 1 where a reboot keeps the unsynced
     * write i.
     * Throws in order Closed, Argument, Name, Floor, JournalFull, NoMemory; Refused where there is
     * no such actor. */
    [[nodiscard]] Verdict kill(std::uint32_t actor, Key key, std::string_view value, Kind kind,
                               Kind floor = Kind::RebootProcess, std::uint64_t tear = 0)
    {
        std::uint32_t struck = 0, rule = 0;
        std::uint64_t named = 0;
        const std::uint32_t status =
            fy_kill(opened(), actor, static_cast<std::uint32_t>(key), detail::bytes(value),
                    value.size(), static_cast<std::uint32_t>(kind),
                    static_cast<std::uint32_t>(floor), tear, &struck, &rule, &named);
        require(status, FY_STRANGER);
        return verdict_of(struck, rule, named);
    }

    /* What `kill` would answer now to the same order, if the journal had room. It enters nothing.
     * Throws in order Closed, Argument, Name, Floor; Refused where there is no such actor. */
    [[nodiscard]] Verdict judge(std::uint32_t actor, Key key, std::string_view value, Kind kind,
                                Kind floor = Kind::RebootProcess) const
    {
        std::uint32_t struck = 0, rule = 0;
        std::uint64_t named = 0;
        const std::uint32_t status =
            fy_judge(opened(), actor, static_cast<std::uint32_t>(key), detail::bytes(value),
                     value.size(), static_cast<std::uint32_t>(kind),
                     static_cast<std::uint32_t>(floor), &struck, &rule, &named);
        require(status, FY_STRANGER);
        return verdict_of(struck, rule, named);
    }

    /* What `kill` does with Key::Process and the name of the process with this number. No name is
     * looked up, so it is quicker.
     * Throws in order Closed, Argument (also where no process has this number), Floor, JournalFull,
     * NoMemory; Refused where there is no such actor. */
    [[nodiscard]] Verdict kill_process(std::uint32_t actor, std::uint32_t process, Kind kind,
                                       Kind floor = Kind::RebootProcess, std::uint64_t tear = 0)
    {
        std::uint32_t struck = 0, rule = 0;
        std::uint64_t named = 0;
        const std::uint32_t status =
            fy_kill_process(opened(), actor, process, static_cast<std::uint32_t>(kind),
                            static_cast<std::uint32_t>(floor), tear, &struck, &rule, &named);
        require(status, FY_STRANGER);
        return verdict_of(struck, rule, named);
    }

    /* What `kill_process` would answer now to the same order, if the journal had room. It enters
     * nothing.
     * Throws in order Closed, Argument, Floor; Refused where there is no such actor. */
    [[nodiscard]] Verdict judge_process(std::uint32_t actor, std::uint32_t process, Kind kind,
                                        Kind floor = Kind::RebootProcess) const
    {
        std::uint32_t struck = 0, rule = 0;
        std::uint64_t named = 0;
        const std::uint32_t status =
            fy_judge_process(opened(), actor, process, static_cast<std::uint32_t>(kind),
                             static_cast<std::uint32_t>(floor), &struck, &rule, &named);
        require(status, FY_STRANGER);
        return verdict_of(struck, rule, named);
    }

    /* Of each process, by its number, the kind by which a kill of it alone would strike now,
     * ordered by this actor by KillInstantly; empty where nothing would strike. Once one is killed,
     * fewer may be. It enters nothing.
     * Throws in order Closed; Refused where there is no such actor; NoMemory. */
    [[nodiscard]] std::vector<std::optional<Kind>> killable(std::uint32_t actor) const
    {
        std::uint8_t kinds[Processes().size()] = {};
        std::size_t told = 0;
        require(fy_killable(opened(), actor, kinds, sizeof kinds, &told), FY_STRANGER);
        try {
            std::vector<std::optional<Kind>> answer(told);
            for (std::size_t process = 0; process < told; process++)
                if (kinds[process] != FY_NONE)
                    answer[process] = static_cast<Kind>(kinds[process]);
            return answer;
        } catch (const std::bad_alloc &) {
            throw Error(Status::NoMemory);
        }
    }

    /* Reports that a process runs again, by an actor whose role is storage.
     * Throws in order Closed, JournalFull, NoMemory; Refused where it is up, gone or not there, or
     * where the actor may not say so. */
    void up(std::uint32_t actor, std::uint32_t process)
    {
        std::uint32_t refusal = 0;
        const std::uint32_t status = fy_up(opened(), actor, process, &refusal);
        require(status, refusal);
    }

    /* Reports that a destroyed process has every acknowledged record on its disk again, by an actor
     * whose role is storage. Throws as `up` does. */
    void heal(std::uint32_t actor, std::uint32_t process)
    {
        std::uint32_t refusal = 0;
        const std::uint32_t status = fy_heal(opened(), actor, process, &refusal);
        require(status, refusal);
    }

    /* Holds back the messages of each process whose key has the value for so many ticks. A rule
     * that bars it is answered.
     * Throws in order Closed, Argument, Name, JournalFull, NoMemory; Refused where there is no such
     * actor. */
    [[nodiscard]] Ruling clog(std::uint32_t actor, Key key, std::string_view value,
                              std::uint64_t ticks)
    {
        return ruling_of(made([&](fy_guard *guard, fy_reply *reply) {
            return fy_clog(guard, actor, static_cast<std::uint32_t>(key), detail::bytes(value),
                           value.size(), ticks, reply);
        }));
    }

    /* Ends the clogs of each process whose key has the value. Throws as `clog` does. */
    [[nodiscard]] Ruling unclog(std::uint32_t actor, Key key, std::string_view value)
    {
        return ruling_of(made([&](fy_guard *guard, fy_reply *reply) {
            return fy_unclog(guard, actor, static_cast<std::uint32_t>(key), detail::bytes(value),
                             value.size(), reply);
        }));
    }

    /* The acts below throw in order Closed, what else they name, JournalFull, NoMemory, and Refused
     * with its reason, which `fy_guard_form` and those behind it in faultyard.h list. */

    /* Forms a team of these processes, by rising number, and answers its number. By an actor whose
     * role is storage. Argument where they don't rise, or are more than FY_MOST_MEMBERS. */
    std::uint32_t form(std::uint32_t actor, const std::vector<std::uint32_t> &members,
                       std::uint32_t policy)
    {
        const std::uint32_t nobody = 0;
        return made([&](fy_guard *guard, fy_reply *reply) {
                   return fy_form(guard, actor, members.empty() ? &nobody : members.data(),
                                  members.size(), policy, reply);
               })
            .team;
    }

    /* Begins a record for a team, and sends each member a store message. By an actor whose role is
     * storage. Argument where the payload has more than FY_MOST_PAYLOAD bytes. */
    Begun begin(std::uint32_t actor, std::uint32_t team, std::string_view payload)
    {
        const fy_reply reply = made([&](fy_guard *guard, fy_reply *told) {
            return fy_begin(guard, actor, team, detail::bytes(payload), payload.size(), told);
        });
        return {reply.record, reply.message};
    }

    /* Delivers a message in flight. By an actor whose role is storage. */
    Delivered deliver(std::uint32_t actor, std::uint64_t message)
    {
        const fy_reply reply = made([&](fy_guard *guard, fy_reply *told) {
            return fy_deliver(guard, actor, message, told);
        });
        return reply.acked != 0    ? Delivered::Acked
               : reply.marked != 0 ? Delivered::Mark
                                   : Delivered::Store;
    }

    /* Drops a message in flight. By an actor whose role is storage. */
    void lose(std::uint32_t actor, std::uint64_t message)
    {
        made([&](fy_guard *guard, fy_reply *reply) {
            return fy_lose(guard, actor, message, reply);
        });
    }

    /* Sends a member the store message of a record again, and answers the message's number. By an
     * actor whose role is storage. */
    std::uint64_t resend(std::uint32_t actor, std::uint32_t record, std::uint32_t process)
    {
        return made([&](fy_guard *guard, fy_reply *reply) {
                   return fy_resend(guard, actor, record, process, reply);
               })
            .message;
    }

    /* Syncs what a process has written, and sends an acknowledgement of each write. By an actor
     * whose role is storage. */
    Synced sync(std::uint32_t actor, std::uint32_t process)
    {
        const fy_reply reply = made(
            [&](fy_guard *guard, fy_reply *told) { return fy_sync(guard, actor, process, told); });
        return {reply.synced, reply.message};
    }

    /* Lets time pass, and answers the time. By an actor whose role is storage. */
    std::uint64_t tick(std::uint32_t actor, std::uint64_t ticks)
    {
        return made([&](fy_guard *guard, fy_reply *reply) {
                   return fy_tick(guard, actor, ticks, reply);
               })
            .now;
    }

    /* Sends the store message of a record from a process that has it synced to another, and answers
     * the message's number. By an actor whose role is storage. */
    std::uint64_t copy(std::uint32_t actor, std::uint32_t from, std::uint32_t record,
                       std::uint32_t to)
    {
        return made([&](fy_guard *guard, fy_reply *reply) {
                   return fy_copy(guard, actor, from, record, to, reply);
               })
            .message;
    }

    /* Puts a process into a team in place of a member. By an actor whose role is storage. */
    void replace(std::uint32_t actor, std::uint32_t team, std::uint32_t out, std::uint32_t into)
    {
        made([&](fy_guard *guard, fy_reply *reply) {
            return fy_replace(guard, actor, team, out, into, reply);
        });
    }

    /* Gives another actor a grant of these kinds on every process. By an actor whose role is
     * operator. */
    void give(std::uint32_t actor, std::uint32_t to, Kinds kinds)
    {
        give_by(actor, to, kinds, FY_EVERYONE, std::string_view());
    }

    /* The same, on the processes whose key has the value. Argument, Name. */
    void give(std::uint32_t actor, std::uint32_t to, Kinds kinds, Key key, std::string_view value)
    {
        /* The number of every process is that of no key. */
        const auto number = static_cast<std::uint32_t>(key);
        give_by(actor, to, kinds, number == FY_EVERYONE ? UINT32_MAX : number, value);
    }

    /* Takes away the grant at a place, from 0, of another actor's list. By an actor whose role is
     * operator. */
    void take(std::uint32_t actor, std::uint32_t from, std::uint32_t index)
    {
        made([&](fy_guard *guard, fy_reply *reply) {
            return fy_take(guard, actor, from, index, reply);
        });
    }

    /* Bars kinds on a process, for every actor. By an actor whose role is operator. */
    void protect(std::uint32_t actor, std::uint32_t process, Kinds kinds)
    {
        made([&](fy_guard *guard, fy_reply *reply) {
            return fy_protect(guard, actor, process, static_cast<std::uint32_t>(kinds), reply);
        });
    }

    /* Bars kinds on a process no longer. By an actor whose role is operator. */
    void unprotect(std::uint32_t actor, std::uint32_t process, Kinds kinds)
    {
        made([&](fy_guard *guard, fy_reply *reply) {
            return fy_unprotect(guard, actor, process, static_cast<std::uint32_t>(kinds), reply);
        });
    }

    /* Makes any act, given as its line of a script, and answers the line of its entry, which ends
     * with a line feed. A refused act is answered too: the line has the refusal.
     * Throws in order Closed, LineTooLong, LineSyntax, Floor, JournalFull; NoMemory in place of any
     * but the first. After Unwritten the act stands in the journal, and `entry` reads it. */
    std::string act(std::string_view line)
    {
        fy_guard *const guard = opened();
        std::string answer = room_for(line.size() + FY_MOST_REPLY);
        std::size_t told = 0;
        require(fy_act(guard, detail::bytes(line), line.size(), bytes_of(answer), answer.size(),
                       &told));
        answer.resize(told);
        return answer;
    }

    /* Asks any question, given as its line, and answers the line of what is told, which ends with a
     * line feed (docs/FORMATS.md). Nothing changes.
     * Throws in order Closed, LineTooLong, LineSyntax, Floor; NoMemory in place of any but the
     * first two. */
    std::string ask(std::string_view line) const
    {
        const fy_guard *const guard = opened();
        return told([=](std::uint8_t *buffer, std::size_t room, std::size_t *length) {
            return fy_ask(guard, detail::bytes(line), line.size(), buffer, room, length);
        });
    }

    /* The number of the process whose processid is this name. Throws Closed. */
    std::optional<std::uint32_t> process(std::string_view name) const
    {
        return somebody(fy_process(opened(), detail::bytes(name), name.size()));
    }

    /* How many processes there are; they are numbered from 0. Throws Closed. */
    std::uint32_t process_count() const { return fy_process_count(opened()); }

    /* The processes that a kill of this key and value is about: those that have the value and
     * aren't gone for good, emptied or not. Ask before the kill, which may be for good.
     * Throws in order Closed, Argument, Name. */
    Processes targets(Key key, std::string_view value) const
    {
        std::uint64_t words[FY_SET_WORDS] = {};
        require(fy_targets(opened(), static_cast<std::uint32_t>(key), detail::bytes(value),
                           value.size(), words, FY_SET_WORDS));
        return set_of(words);
    }

    /* Whether a process is destroyed: struck by a kind that empties its disk, and not healed since.
     * Throws Closed. */
    bool is_destroyed(std::uint32_t process) const
    {
        return fy_is_destroyed(opened(), process) != 0;
    }

    /* The processes that aren't gone for good, emptied or not. Throws Closed. */
    Processes left() const { return asked(fy_left); }

    /* The processes that are up. Throws Closed. */
    Processes up_set() const { return asked(fy_up_set); }

    /* The processes that are destroyed, gone for good or not. Throws Closed. */
    Processes destroyed() const { return asked(fy_destroyed_set); }

    /* The processes that are gone for good. Throws Closed. */
    Processes gone() const { return asked(fy_gone_set); }

    /* The state of a process. Empty where there is no process with this number. Throws Closed. */
    std::optional<State> state(std::uint32_t process) const
    {
        const std::uint32_t bits = fy_state(opened(), process);
        if (bits == FY_NOBODY)
            return std::nullopt;
        State state;
        state.up = (bits & FY_STATE_UP) != 0;
        state.clogged = (bits & FY_STATE_CLOGGED) != 0;
        state.destroyed = (bits & FY_STATE_DESTROYED) != 0;
        state.gone = (bits & FY_STATE_GONE) != 0;
        return state;
    }

    /* The record that a process still needs before it may be healed: of its teams' records, the
     * least acknowledged one that it hasn't synced. `heal` throws StillNeeds for it. Throws
     * Closed. */
    std::optional<std::uint32_t> needed(std::uint32_t process) const
    {
        const std::uint32_t record = fy_needed(opened(), process);
        return record == FY_NO_SUCH_RECORD ? std::nullopt : std::optional(record);
    }

    /* Whether a record is acknowledged. Throws Closed. */
    bool is_acked(std::uint32_t record) const { return fy_is_acked(opened(), record) != 0; }

    /* Who keeps an acknowledged record: the least member of its team that isn't destroyed and has
     * the record synced. Empty for any other record. Throws Closed. */
    std::optional<std::uint32_t> keeper(std::uint32_t record) const
    {
        return somebody(fy_keeper(opened(), record));
    }

    /* The time, and what there is to do next. Throws Closed. */
    Sight sight() const
    {
        fy_seen seen = {};
        fy_sight(opened(), &seen);
        Sight sight;
        sight.now = seen.now;
        if (seen.deliverable != FY_NOTHING)
            sight.deliverable = seen.deliverable;
        sight.unsynced = somebody(seen.unsynced);
        sight.sleeping = somebody(seen.sleeping);
        return sight;
    }

    /* How much of the cluster may still be lost, as the journal left it: the numbers that
     * `faultyard bears` tells first. Throws in order Closed, NoMemory. */
    Borne bears() const
    {
        fy_borne told = {};
        require(fy_bears(opened(), &told));
        return {told.emptied, told.gone, told.emptied_exact != 0, told.gone_exact != 0};
    }

    /* How many entries the journal has. Throws Closed. */
    std::size_t journal_len() const { return fy_journal_len(opened()); }

    /* The line of the entry at a place of the journal, from 0; it ends with a line feed.
     * Throws in order Closed, NoEntry, NoMemory. */
    std::string entry(std::size_t at) const
    {
        const fy_guard *const guard = opened();
        return told([=](std::uint8_t *buffer, std::size_t room, std::size_t *length) {
            return fy_audit(guard, at, buffer, room, length);
        });
    }

    /* The audit that `faultyard check` reads: its header and the line of each entry.
     * Throws Closed, NoMemory. */
    std::string audit() const
    {
        const std::size_t count = journal_len();
        try {
            std::string text = FY_AUDIT_HEADER;
            for (std::size_t at = 0; at < count; at++)
                text += entry(at);
            return text;
        } catch (const std::bad_alloc &) {
            throw Error(Status::NoMemory);
        }
    }

    /* The swizzle that is drawn from a stream of a seed: clogs, and then the end of each, in
     * another order. A swarm's first, third, .. fault actor makes it; the stream is its number.
     * Nothing is entered. Throws in order Closed, NoMemory. */
    std::vector<Order> swizzle_plan(std::uint64_t seed, std::uint64_t stream,
                                    std::uint64_t ticks = 10) const
    {
        const fy_guard *const guard = opened();
        return plan([=](fy_order *orders, std::size_t room, std::size_t *told) {
            return fy_swizzle_plan(guard, seed, stream, ticks, orders, room, told);
        });
    }

    /* The attrition that is drawn from a stream of a seed: kills of so many machines, but so many
     * are spared. A swarm's second, fourth, .. fault actor makes that of the values left out; the
     * stream is its number. Nothing is entered.
     * Throws in order Closed, Argument, Floor, NoMemory. */
    std::vector<Order> attrition_plan(std::uint64_t seed, std::uint64_t stream,
                                      std::uint32_t to_kill = 2, std::uint32_t to_leave = 1,
                                      Kind kind = Kind::KillInstantly, Kind floor = Kind::Reboot,
                                      std::uint64_t tear = 0) const
    {
        const fy_guard *const guard = opened();
        return plan([=](fy_order *orders, std::size_t room, std::size_t *told) {
            return fy_attrition_plan(guard, seed, stream, to_kill, to_leave,
                                     static_cast<std::uint32_t>(kind),
                                     static_cast<std::uint32_t>(floor), tear, orders, room, told);
        });
    }

    /* The orders of the first turns of the fault actor with this number in `faultyard simulate`,
     * one a turn: OrderAct::None of a turn that orders nothing. The target may be one that no
     * process has, and the ticks more than the clock has. Nothing is entered.
     * Throws in order Closed, Argument, NoMemory. */
    std::vector<Order> plan_orders(Plan plan, std::uint64_t seed, std::uint32_t actor,
                                   std::size_t count) const
    {
        const fy_guard *const guard = opened();
        try {
            /* The library takes no null pointer, also for no orders. */
            std::vector<fy_order> drawn(count == 0 ? 1 : count);
            require(fy_plan_orders(guard, static_cast<std::uint32_t>(plan), seed, actor,
                                   drawn.data(), count));
            drawn.resize(count);
            return orders_of(drawn);
        } catch (const std::bad_alloc &) {
            throw Error(Status::NoMemory);
        }
    }

private:
    friend class Check;

    /* Most lines have fewer bytes; a longer one is read again. */
    static constexpr std::size_t USUAL_LINE = 512;

    /* Most plans have fewer orders; a longer one is drawn again. */
    static constexpr std::size_t USUAL_PLAN = 64;

    /* The orders that a call of the library writes. */
    template <typename Call> static std::vector<Order> plan(Call call)
    {
        try {
            std::vector<fy_order> drawn(USUAL_PLAN);
            std::size_t told = 0;
            std::uint32_t status = call(drawn.data(), drawn.size(), &told);
            if (status == FY_SHORT) {
                drawn.resize(told);
                status = call(drawn.data(), drawn.size(), &told);
            }
            require(status);
            drawn.resize(told);
            return orders_of(drawn);
        } catch (const std::bad_alloc &) {
            throw Error(Status::NoMemory);
        }
    }

    static std::vector<Order> orders_of(const std::vector<fy_order> &drawn)
    {
        std::vector<Order> orders;
        orders.reserve(drawn.size());
        for (const fy_order &order : drawn)
            orders.push_back(order_of(order));
        return orders;
    }

    static Order order_of(const fy_order &drawn)
    {
        Order order;
        order.act = static_cast<OrderAct>(drawn.act);
        order.key = static_cast<Key>(drawn.key);
        order.value = drawn.value;
        if (drawn.kind != FY_NONE)
            order.kind = static_cast<Kind>(drawn.kind);
        if (drawn.floor != FY_NONE)
            order.floor = static_cast<Kind>(drawn.floor);
        order.tear = drawn.tear;
        order.ticks = drawn.ticks;
        return order;
    }

    /* A closed guard. */
    Guard() noexcept = default;

    fy_guard *opened()
    {
        require_open();
        return &guard_;
    }

    const fy_guard *opened() const
    {
        require_open();
        return &guard_;
    }

    void require_open() const
    {
        if (!is_open())
            throw Error(Status::Closed);
    }

    /* The set that a call of the library writes. */
    Processes asked(void (*call)(const fy_guard *, std::uint64_t *, std::size_t)) const
    {
        std::uint64_t words[FY_SET_WORDS] = {};
        call(opened(), words, FY_SET_WORDS);
        return set_of(words);
    }

    static Processes set_of(const std::uint64_t (&words)[FY_SET_WORDS]) noexcept
    {
        Processes set;
        for (std::size_t process = 0; process < set.size(); process++)
            set[process] = (words[process / 64] >> process % 64 & 1) != 0;
        return set;
    }

    static Verdict verdict_of(std::uint32_t struck, std::uint32_t rule,
                              std::uint64_t named) noexcept
    {
        Verdict verdict;
        if (struck != FY_NONE)
            verdict.struck = static_cast<Kind>(struck);
        if (rule != FY_NO_RULE)
            verdict.rule = static_cast<Rule>(rule);
        if (rule != FY_NO_RULE && rule != FY_NO_TARGET)
            verdict.named = named;
        return verdict;
    }

    /* Makes an act by numbers, and answers what the library tells of it. */
    template <typename Call> fy_reply made(Call call)
    {
        fy_reply reply = {};
        const std::uint32_t status = call(opened(), &reply);
        if (status != FY_REFUSED) {
            require(status);
            return reply;
        }
        const bool is_named = reply.refusal == FY_TEAM_SHORT || reply.refusal == FY_STILL_NEEDS;
        throw Error(Status::Refused, static_cast<Refusal>(reply.refusal),
                    is_named ? std::optional(reply.named) : std::nullopt);
    }

    void give_by(std::uint32_t actor, std::uint32_t to, Kinds kinds, std::uint32_t key,
                 std::string_view value)
    {
        made([&](fy_guard *guard, fy_reply *reply) {
            return fy_give(guard, actor, to, static_cast<std::uint32_t>(kinds), key,
                           detail::bytes(value), value.size(), reply);
        });
    }

    static Ruling ruling_of(const fy_reply &reply) noexcept
    {
        Ruling ruling;
        if (reply.rule != FY_NO_RULE)
            ruling.rule = static_cast<Rule>(reply.rule);
        if (reply.rule != FY_NO_RULE && reply.rule != FY_NO_TARGET)
            ruling.named = reply.named;
        return ruling;
    }

    static std::optional<std::uint32_t> somebody(std::uint32_t process) noexcept
    {
        return process == FY_NOBODY ? std::nullopt : std::optional(process);
    }

    static void require(std::uint32_t status, std::uint32_t refusal = FY_NOT_REFUSED)
    {
        if (status == FY_REFUSED)
            throw Error(Status::Refused, static_cast<Refusal>(refusal));
        if (status != FY_DONE)
            throw Error(static_cast<Status>(status));
    }

    /* The fault of a cluster file that is refused. It is read again, which may want memory. */
    static Error fault_of(std::string_view config, std::uint32_t refused) noexcept
    {
        std::uint32_t part = FY_WHOLE_FILE;
        std::uint64_t place = 0;
        const std::uint32_t status =
            fy_config_fault(detail::bytes(config), config.size(), &part, &place);
        if (status != refused)
            return Error(static_cast<Status>(status == FY_DONE ? refused : status));
        const bool has_place =
            status == FY_CONFIG_NAME || status == FY_CONFIG_POLICY || status == FY_CONFIG_UNMET;
        return Error(static_cast<Status>(status),
                     part == FY_WHOLE_FILE ? std::nullopt : std::optional(static_cast<Part>(part)),
                     has_place ? std::optional(place) : std::nullopt);
    }

    /* The line that a call writes to a buffer with so much room, and whose length it tells. */
    template <typename Call> static std::string told(Call call)
    {
        std::string line;
        std::size_t length = USUAL_LINE;
        std::uint32_t status = FY_SHORT;
        while (status == FY_SHORT) {
            line = room_for(length);
            status = call(bytes_of(line), line.size(), &length);
        }
        require(status);
        line.resize(length);
        return line;
    }

    static std::string room_for(std::size_t length)
    {
        try {
            return std::string(length, '\0');
        } catch (const std::bad_alloc &) {
            throw Error(Status::NoMemory);
        }
    }

    static std::uint8_t *bytes_of(std::string &text) noexcept
    {
        return reinterpret_cast<std::uint8_t *>(text.data());
    }

    fy_guard guard_ = {nullptr};
};

/* What is found of an audit. */
struct Finding {
    /* How many entries were read. */
    std::uint32_t count = 0;
    /* The first of them that isn't what the rules give. */
    std::optional<std::uint32_t> first_bad;

    friend constexpr bool operator==(const Finding &one, const Finding &other) noexcept
    {
        return one.count == other.count && one.first_bad == other.first_bad;
    }

    friend constexpr bool operator!=(const Finding &one, const Finding &other) noexcept
    {
        return !(one == other);
    }
};

/* An audit that is checked line by line, as `faultyard check` does. It is moved and never copied.
 * It may be used by another thread, one call at a time. After `close`, and after it was moved from,
 * each call throws Closed. */
class Check {
public:
    /* Begins to check an audit of a cluster that began with this cluster file. Throws as the
     * constructor of a guard does. */
    explicit Check(std::string_view config)
    {
        const std::uint32_t status = fy_begin_check(detail::bytes(config), config.size(), &check_);
        if (status >= FY_CONFIG_TOO_LONG && status <= FY_CONFIG_UNMET)
            throw Guard::fault_of(config, status);
        Guard::require(status);
    }

    Check(Check &&other) noexcept : check_(std::exchange(other.check_, fy_check{nullptr})) {}

    Check &operator=(Check &&other) noexcept
    {
        if (this != &other) {
            close();
            check_ = std::exchange(other.check_, fy_check{nullptr});
        }
        return *this;
    }

    Check(const Check &) = delete;
    Check &operator=(const Check &) = delete;
    ~Check() { close(); }

    /* Frees what it holds. A closed check stays closed. */
    void close() noexcept
    {
        if (is_open())
            fy_end_check(std::exchange(check_, fy_check{nullptr}));
    }

    bool is_open() const noexcept { return fy_check_is_open(&check_) != 0; }

    /* Reads the next line, which ends with a line feed: the header, and then an entry each time.
     * Answers the first entry so far that isn't what the rules give.
     * Throws in order Closed, AuditTooLong, NoHeader, LineTooLong, LineSyntax; NoMemory in place of
     * LineSyntax. The line counts as not read then. */
    std::optional<std::uint32_t> line(std::string_view text)
    {
        require_open();
        std::uint32_t bad = FY_NO_BAD_ENTRY;
        Guard::require(fy_read_line(&check_, detail::bytes(text), text.size(), &bad));
        return entry_of(bad);
    }

    /* What is found of the lines that were read; the check goes on. Throws in order Closed,
     * NoHeader. */
    Finding finding() const
    {
        require_open();
        Finding finding;
        std::uint32_t bad = FY_NO_BAD_ENTRY;
        Guard::require(fy_finding(&check_, &finding.count, &bad));
        finding.first_bad = entry_of(bad);
        return finding;
    }

private:
    void require_open() const
    {
        if (!is_open())
            throw Error(Status::Closed);
    }

    static std::optional<std::uint32_t> entry_of(std::uint32_t bad) noexcept
    {
        return bad == FY_NO_BAD_ENTRY ? std::nullopt : std::optional(bad);
    }

    fy_check check_ = {nullptr};
};

} // namespace faultyard

#endif

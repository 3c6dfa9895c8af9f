/* Plays acts through faultyard.hpp, and tells each answer.
 *
 *     play CONFIG AUDIT < acts > answers
 *
 * tests/bindings/python/played.py says what stands on each line of both. The audit goes to AUDIT.
 */
#include <faultyard.hpp>

#include <algorithm>
#include <fstream>
#include <iostream>
#include <iterator>
#include <stdexcept>
#include <vector>

using namespace faultyard;

/* The part of a line before the next tab, which is taken off. */
static std::string_view taken(std::string_view &line)
{
    const std::size_t end = line.find('\t');
    const std::string_view part = line.substr(0, end);
    line.remove_prefix(end == std::string_view::npos ? line.size() : end + 1);
    return part;
}

static std::uint64_t number(std::string_view &line)
{
    return std::stoull(std::string(taken(line)));
}

static std::uint32_t small_number(std::string_view &line)
{
    return static_cast<std::uint32_t>(number(line));
}

/* The value of an enum that has a word. */
template <typename Enum> static Enum value_of(std::string_view word)
{
    for (std::uint32_t number = 1; number <= 5; number++) {
        const Enum value = static_cast<Enum>(number);
        if (to_string(value) == word)
            return value;
    }
    throw std::invalid_argument(std::string(word));
}

static std::string killed(Guard &guard, std::string_view words)
{
    const std::uint32_t actor = small_number(words);
    const Key key = value_of<Key>(taken(words));
    const std::string_view value = taken(words);
    const Kind kind = value_of<Kind>(taken(words));
    const Kind floor = value_of<Kind>(taken(words));
    const Verdict verdict = guard.kill(actor, key, value, kind, floor, number(words));
    std::string told = "verdict ";
    told += verdict.struck ? to_string(*verdict.struck) : "-";
    told += " ";
    told += verdict.rule ? to_string(*verdict.rule) : "-";
    told += " ";
    told += verdict.named ? std::to_string(*verdict.named) : "-";
    return told;
}

static std::string ruled(const Ruling &ruling)
{
    std::string told = "ruled ";
    told += ruling.rule ? to_string(*ruling.rule) : "-";
    told += " ";
    told += ruling.named ? std::to_string(*ruling.named) : "-";
    return told;
}

/* The numbers that commas part. */
static std::vector<std::uint32_t> numbers(std::string_view text)
{
    std::vector<std::uint32_t> found;
    while (!text.empty()) {
        const std::size_t end = std::min(text.find(','), text.size());
        found.push_back(static_cast<std::uint32_t>(std::stoul(std::string(text.substr(0, end)))));
        text.remove_prefix(std::min(end + 1, text.size()));
    }
    return found;
}

/* The bytes of two digits each. */
static std::string bytes(std::string_view digits)
{
    std::string found;
    for (std::size_t at = 0; at < digits.size(); at += 2)
        found += static_cast<char>(std::stoi(std::string(digits.substr(at, 2)), nullptr, 16));
    return found;
}

/* What an act of a storage actor by numbers is answered. */
static std::string stored(Guard &guard, std::string_view name, std::string_view words)
{
    const std::uint32_t actor = small_number(words);
    if (name == "form") {
        const std::vector<std::uint32_t> members = numbers(taken(words));
        return "formed " + std::to_string(guard.form(actor, members, small_number(words)));
    }
    if (name == "begin") {
        const std::uint32_t team = small_number(words);
        const Begun begun = guard.begin(actor, team, bytes(words));
        return "begun " + std::to_string(begun.record) + " " + std::to_string(begun.first);
    }
    if (name == "deliver") {
        const Delivered delivered = guard.deliver(actor, number(words));
        if (delivered == Delivered::Store)
            return "stored";
        return delivered == Delivered::Acked ? "marked true" : "marked false";
    }
    if (name == "lose") {
        guard.lose(actor, number(words));
        return "done";
    }
    if (name == "resend") {
        const std::uint32_t record = small_number(words);
        return "sent " + std::to_string(guard.resend(actor, record, small_number(words)));
    }
    if (name == "sync") {
        const Synced synced = guard.sync(actor, small_number(words));
        return "synced " + std::to_string(synced.count) + " " + std::to_string(synced.first);
    }
    if (name == "tick")
        return "time " + std::to_string(guard.tick(actor, number(words)));
    const std::uint32_t first = small_number(words), second = small_number(words);
    if (name == "copy")
        return "sent " + std::to_string(guard.copy(actor, first, second, small_number(words)));
    if (name != "replace")
        throw std::invalid_argument(std::string(name));
    guard.replace(actor, first, second, small_number(words));
    return "done";
}

/* Makes an act on rights by numbers. */
static void allow(Guard &guard, std::string_view name, std::string_view words)
{
    const std::uint32_t actor = small_number(words), whom = small_number(words);
    const std::uint32_t number = small_number(words);
    const Kinds kinds = static_cast<Kinds>(number);
    if (name == "take")
        guard.take(actor, whom, number);
    else if (name == "protect")
        guard.protect(actor, whom, kinds);
    else if (name == "unprotect")
        guard.unprotect(actor, whom, kinds);
    else if (const std::string_view key = taken(words); key == "-")
        guard.give(actor, whom, kinds);
    else
        guard.give(actor, whom, kinds, value_of<Key>(key), words);
}

static std::string answered(Guard &guard, std::string_view line)
{
    const std::string_view name = taken(line);
    if (name == "act") {
        std::string entry = guard.act(line);
        entry.pop_back();
        return entry;
    }
    if (name == "kill")
        return killed(guard, line);
    if (name == "give" || name == "take" || name == "protect" || name == "unprotect") {
        allow(guard, name, line);
        return "done";
    }
    if (name != "up" && name != "heal" && name != "clog" && name != "unclog")
        return stored(guard, name, line);
    const std::uint32_t actor = small_number(line);
    if (name == "clog" || name == "unclog") {
        const Key key = value_of<Key>(taken(line));
        const std::string_view value = taken(line);
        return ruled(name == "clog" ? guard.clog(actor, key, value, number(line))
                                    : guard.unclog(actor, key, value));
    }
    if (name == "up")
        guard.up(actor, small_number(line));
    else
        guard.heal(actor, small_number(line));
    return "done";
}

static std::string answer(Guard &guard, std::string_view line)
{
    try {
        return answered(guard, line);
    } catch (const Error &error) {
        if (error.status() != Status::Refused)
            throw;
        const std::string told = "refused " + std::string(to_string(error.refusal().value()));
        return error.named() ? told + " " + std::to_string(*error.named()) : told;
    }
}

int main(int count, char **words)
{
    if (count != 3)
        return 2;
    std::ifstream config(words[1]);
    Guard guard(std::string(std::istreambuf_iterator<char>(config), {}));
    std::string line;
    while (std::getline(std::cin, line)) {
        std::cout << answer(guard, line) << '\t';
        for (std::uint32_t process = 0; process < 7; process++)
            std::cout << guard.is_destroyed(process);
        std::cout << '\t' << guard.left().to_ullong() << '\n';
    }
    std::ofstream(words[2]) << guard.audit();
}

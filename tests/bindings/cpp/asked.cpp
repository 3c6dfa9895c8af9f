/* Makes acts and asks questions through faultyard.hpp, by their lines.
 *
 *     asked < lines > answers
 *
 * A line is the path of a cluster file, of which a guard is opened then; an act; or a question. */
#include <faultyard.hpp>

#include <fstream>
#include <iostream>
#include <iterator>
#include <optional>

int main()
{
    std::optional<faultyard::Guard> guard;
    for (std::string line; std::getline(std::cin, line);) {
        if (line.rfind("/", 0) == 0) {
            std::ifstream file(line);
            const std::string config{std::istreambuf_iterator<char>(file), {}};
            guard.emplace(config);
        } else if (line.rfind("{\"ask\"", 0) == 0) {
            std::cout << guard->ask(line);
        } else {
            std::cout << guard->act(line);
        }
    }
}

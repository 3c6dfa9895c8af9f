/* Opens a guard by each cluster file that is named, and tells on a line why it is refused.
 *
 *     refused CONFIG .. > errors
 */
#include <faultyard.hpp>

#include <fstream>
#include <iostream>
#include <iterator>

int main(int count, char **words)
{
    for (int at = 1; at < count; at++) {
        std::ifstream config(words[at]);
        try {
            faultyard::Guard guard(std::string(std::istreambuf_iterator<char>(config), {}));
            std::cout << "opened\n";
        } catch (const faultyard::Error &error) {
            std::cout << error.what() << '\n';
        }
    }
}

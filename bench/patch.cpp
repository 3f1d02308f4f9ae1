// What `mergejoin patch` does, as it is written in C++ with nlohmann's JSON: reads
// `[document, patch]`, applies the JSON Patch (RFC 6902), prints the document.
// With an argument it prints the library's version.

#include <iostream>
#include <nlohmann/json.hpp>
#include <sstream>

int main(int count, char**) {
    using nlohmann::json;
    if (count > 1) {
        std::cout << "nlohmann JSON " << json::meta()["version"]["string"].get<std::string>() << '\n';
        return 0;
    }
    std::ios::sync_with_stdio(false);
    std::ostringstream input;
    input << std::cin.rdbuf();
    json parts = json::parse(input.str());
    parts[0].patch_inplace(parts[1]);
    std::cout << parts[0].dump() << '\n';
}

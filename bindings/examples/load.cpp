// Loads a file over an environment, in C++.
#include "dotenvy.h"
#include <algorithm>
#include <iostream>
#include <string>
#include <string_view>

int main() {
    const std::string_view file = "HOST=localhost\nURL=http://${HOST}:${PORT}/\nUSER=a b\n";
    const std::string_view block("PORT=9\0", 7);
    dotenvy_answer answer;
    // How long is the result?
    dotenvy_load(file.data(), file.size(), block.data(), block.size(), 0, &answer, nullptr, 0);
    std::string out(answer.block_len + answer.text_len, '\0');
    dotenvy_load(file.data(), file.size(), block.data(), block.size(), 0, &answer, out.data(), out.size());
    if (!answer.fits) {
        std::cerr << "status " << answer.status << '\n';
        return 1;
    }
    std::string entries = out.substr(0, answer.block_len);
    std::replace(entries.begin(), entries.end(), '\0', '\n');
    std::cout << entries;
    if (answer.status != DOTENVY_OK)
        std::cout << "error " << answer.status << ": " << out.substr(answer.block_len) << '\n';
}

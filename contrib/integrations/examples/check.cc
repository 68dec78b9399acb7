// Prints the verdict on each file.
#include <dwv.h>
#include <cstdio>
#include <fstream>
#include <iterator>
#include <new>
#include <string>
#include <variant>
#include <vector>

struct Fault { std::string rule, name, section; std::uint32_t at; };
using Verdict = std::variant<std::uint64_t, Fault>; // how many entries, or the fault

Verdict check(const std::vector<std::uint8_t> &file) {
    static const std::uint8_t none = 0;
    dwv_verdict v{};
    switch (dwv_check(file.empty() ? &none : file.data(), file.size(), &v)) { // data() may be null if it is empty
    case DWV_SOUND: return v.entries;
    case DWV_FAULT: return Fault{v.rule, v.name, v.section, v.at};
    default: throw std::bad_alloc();
    }
}

int main(int argc, char **argv) {
    for (int k = 1; k < argc; k++) {
        std::ifstream opened(argv[k], std::ios::binary);
        Verdict verdict = check({std::istreambuf_iterator<char>(opened), {}});
        if (auto *fault = std::get_if<Fault>(&verdict))
            std::printf("%s %s at %s+0x%08x\n", fault->rule.c_str(), fault->name.c_str(), fault->section.c_str(),
                        fault->at);
        else
            std::printf("sound, %llu entries\n", static_cast<unsigned long long>(std::get<std::uint64_t>(verdict)));
    }
}

#include "feed.h"

#include "../../include/settle.h"
#include "../generate/files.h"
#include "../second/second.h"
#include "told_line.h"

#include <array>
#include <cstring>

namespace differential {
namespace {

constexpr size_t longest_out = 64;
constexpr size_t behind = 16;  // bytes behind the output, which have to stay as well
constexpr size_t most_reports = 20;

using Buffer = std::array<uint8_t, longest_out + behind>;

struct Answer {
    uint32_t value = 0;
    Buffer out{};
};

Buffer pattern() {
    Buffer buffer;
    for (size_t i = 0; i < buffer.size(); ++i) buffer[i] = static_cast<uint8_t>(0xa5 ^ (i * 29));
    return buffer;
}

// Whether the bytes that are to stay have stayed.
bool stays(const Answer &answer) {
    const Buffer before = pattern();
    const size_t written = answer.value == 0 ? 8 : 0;
    return std::memcmp(answer.out.data() + written, before.data() + written, before.size() - written) == 0;
}

std::string words(const Answer &answer) {
    const uint8_t *out = answer.out.data();
    if (answer.value != 0) return "return " + std::to_string(answer.value);
    static const char *layers[] = {"?", "map", "file", "call"};
    static const char *verdicts[] = {"refused", "least", "open", "unshown", "othersum"};
    const std::string number = std::to_string(out[1] * 256 + out[2]);
    if (out[0] == 0) return std::string("refused ") + layers[out[3] & 3] + " " + number;
    return out[0] <= 4 ? verdicts[out[0]] : "verdict " + std::to_string(out[0]);
}

std::string line_of(const Answer &answer) {
    if (answer.value != 0) return "unread";
    const uint8_t *out = answer.out.data();
    const unsigned offset = ((out[4] * 256u + out[5]) * 256u + out[6]) * 256u + out[7];
    if (out[0] == 0) return words(answer) + " " + std::to_string(offset);
    return words(answer) + " " + std::to_string(out[1] * 256 + out[2]);
}

std::string shown(const char *name, const Answer &answer) {
    std::string text = std::string(name) + ": return " + std::to_string(answer.value) + ", out";
    char byte[4];
    for (uint8_t b : answer.out) {
        std::snprintf(byte, sizeof byte, " %02x", b);
        text += byte;
    }
    return text;
}

}  // namespace

void Feeder::compare(const File &map, const File &plan, size_t out_len) {
    // Copies as long as the files, so that a read past an end can be found.
    const File map_bytes(map), plan_bytes(plan);
    static const uint8_t nothing = 0;
    const uint8_t *map_data = map.empty() ? &nothing : map_bytes.data();
    const uint8_t *plan_data = plan.empty() ? &nothing : plan_bytes.data();
    Answer proved{0, pattern()}, second{0, pattern()};
    proved.value = settle_files(map_data, map.size(), plan_data, plan.size(), proved.out.data(), out_len);
    second.value = second_opinion(map_data, map.size(), plan_data, plan.size(), second.out.data(), out_len);
    const bool same = proved.value == second.value && proved.out == second.out;
    if (!same || !stays(proved) || !stays(second))
        report("output of length " + std::to_string(out_len) + "\n" + shown("settle_files  ", proved) + "\n" +
                   shown("second_opinion", second), map, plan);
    line = line_of(second);
    ++spread[words(second)];
}

void Feeder::compare_told(const File &map, const File &plan) {
    if (line == "unread") return;
    const std::string told = told_line(map, plan);
    if (told != line) report("tell: " + told + " in place of " + line, map, plan);
}

std::string Feeder::feed(const File &map, const File &plan) {
    static const size_t lengths[] = {64, 8, 9};
    for (size_t length : {size_t{0}, size_t{7}}) compare(map, plan, length);
    compare(map, plan, lengths[fed % 3]);
    compare_told(map, plan);
    ++fed;
    return line;
}

void Feeder::report(const std::string &what, const File &map, const File &plan) {
    const std::filesystem::path name = std::filesystem::path(folder) / std::to_string(reported++);
    std::filesystem::create_directories(name);
    generate::write_file(name / "floor.map", map);
    generate::write_file(name / "plan.work", plan);
    std::printf("DIFFERENCE, files in %s: %s\n", name.c_str(), what.c_str());
    if (reported < most_reports) return;
    std::printf("stopped after %zu differences\n", reported);
    print_spread();
    std::exit(1);
}

void Feeder::print_spread() const {
    std::printf("%zu files fed\n", fed);
    for (const auto &[outcome, times] : spread) std::printf("  %-32s %zu\n", outcome.c_str(), times);
}

std::string Feeder::missing() const {
    std::string names;
    const auto need = [&](const std::string &name) {
        if (spread.count(name) == 0) names += " (" + name + ")";
    };
    for (int number : {1, 2, 3, 4, 5, 6, 7, 8, 21, 22}) need("refused map " + std::to_string(number));
    for (int number : {21, 22, 23}) need("refused file " + std::to_string(number));
    for (int number : {6, 9, 10, 11, 12, 13, 14, 15, 16, 17, 18, 19, 20}) need("refused call " + std::to_string(number));
    for (const char *name : {"least", "open", "unshown", "othersum", "return 24"}) need(name);
    return names;
}

}  // namespace differential

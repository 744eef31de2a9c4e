#include "limits.h"

namespace differential {
namespace {

// A cart that is at its target, on any floor.
File resting_plan() { return Plan(0, 1).trip(0, 0).route(0, {0}).close().settle().file; }

std::string line_end(int times) { return std::string(static_cast<size_t>(times), '.') + "\n"; }

std::string rows(int height, int width) {
    std::string text;
    for (int row = 0; row < height; ++row) text += line_end(width);
    return text;
}

// Every place joined to the next four, in a ring: 4,096 connections, and every place has eight.
ListMap crowded_ring() {
    ListMap map(1024);
    for (int step = 1; step <= 4; ++step)
        for (int p = 0; p < 1024; ++p) map.join(p, (p + step) % 1024);
    return map;
}

ListMap star(int rays, bool inwards) {
    ListMap map(rays + 1);
    for (int ray = 1; ray <= rays; ++ray) inwards ? map.join(ray, 0) : map.join(0, ray);
    return map;
}

File followed_by(File file, const std::string &bytes) {
    file.insert(file.end(), bytes.begin(), bytes.end());
    return file;
}

using Cases = std::vector<std::pair<File, std::string>>;

std::vector<Limit> with_names(const std::string &what, const Cases &cases) {
    std::vector<Limit> limits;
    for (const auto &[map, line] : cases)
        limits.push_back({what + " " + std::to_string(limits.size()), map, resting_plan(), line});
    return limits;
}

Cases list_cases() {
    return {
        {ListMap(1).file, "least 0"},
        {ListMap(0).file, "refused map 5 0"},
        {ListMap(1024).file, "least 0"},
        {ListMap(1025).file, "refused map 5 0"},
        {ListMap(65535).file, "refused map 5 0"},
        {ListMap(1024).join(0, 1023).file, "least 0"},
        {ListMap(1024).join(0, 1024).file, "refused map 6 3"},
        {ListMap(1024).join(1024, 0).file, "refused map 6 3"},
        {ListMap(5).join(5, 5).file, "refused map 6 3"},
        {ListMap(5).join(4, 4).file, "refused map 7 3"},
        {ListMap(5).join(1, 2).join(1, 2).file, "refused map 7 8"},
        {ListMap(5).join(1, 2).join(2, 1).file, "refused map 7 8"},
        {star(8, false).file, "least 0"},
        {star(8, true).file, "least 0"},
        {star(9, false).file, "refused map 8 43"},
        {star(9, true).file, "refused map 8 43"},
        {star(8, true).join(0, 8).file, "refused map 7 43"},
        {text("P"), "refused map 22 1"},
        {text("P\x01"), "refused map 22 2"},
        {followed_by(ListMap(0).file, "Q"), "refused map 5 0"},
        {followed_by(ListMap(1).file, "Q"), "refused map 21 3"},
        {followed_by(ListMap(1).file, "P"), "refused map 21 3"},
        {followed_by(ListMap(1).file, "W"), "refused map 22 4"},
        {followed_by(ListMap(1).file, "W123"), "refused map 22 7"},
        {followed_by(ListMap(2).join(0, 1).file, "\n"), "refused map 21 8"},
    };
}

Cases ring_cases() {
    return {
        {crowded_ring().file, "least 0"},
        {crowded_ring().join(0, 5).file, "refused map 5 20483"},
        {crowded_ring().join(0, 1024).file, "refused map 5 20483"},
        {crowded_ring().join(0, 0).file, "refused map 5 20483"},
        {followed_by(crowded_ring().file, "W123"), "refused map 22 20487"},
        {followed_by(crowded_ring().file, "V1234"), "refused map 21 20483"},
    };
}

Cases heading_cases() {
    return {
        {{}, "refused map 1 0"},
        {text("t"), "refused map 1 1"},
        {text("T"), "refused map 1 0"},
        {text("W"), "refused map 1 0"},
        {text("type octile"), "refused map 1 11"},
        {text("type octile\r\n"), "refused map 1 11"},
        {text("type octile\n"), "refused map 1 12"},
        {text("type octile\nheight 1"), "refused map 1 20"},
        {grid("1", "1", ".\n"), "least 0"},
        {grid("32", "32", rows(32, 32)), "least 0"},
        {grid("032", "032", rows(32, 32)), "least 0"},
        {grid("001", "002", "..\n"), "least 0"},
        {grid("33", "32", rows(33, 32)), "refused map 2 19"},
        {grid("33", "x", ""), "refused map 2 19"},
        {grid("033", "1", ""), "refused map 2 19"},
        {grid("32", "33", rows(32, 33)), "refused map 2 28"},
        {grid("0", "1", ""), "refused map 2 19"},
        {grid("999", "1", ""), "refused map 2 19"},
        {grid("1", "0", "\n"), "refused map 2 27"},
        {grid("1", "000", "\n"), "refused map 2 27"},
        {grid("0032", "1", ""), "refused map 1 22"},
        {grid("", "1", ""), "refused map 1 19"},
        {grid(" 1", "1", ""), "refused map 1 19"},
        {grid("1 ", "1", ""), "refused map 1 20"},
        {grid("-1", "1", ""), "refused map 1 19"},
        {grid("1\r", "1", ""), "refused map 1 20"},
        {grid("1", "1\r", ""), "refused map 1 28"},
        {text("type octile\nheight 1\nwidth 1\nmap"), "refused map 1 32"},
        {text("type octile\nheight 1\nwidth 1\nmap\r\n"), "refused map 1 32"},
        {text("type octile\nheight 1\nwidth 33\nmop\n"), "refused map 2 27"},
    };
}

Cases row_cases() {
    return {
        {grid("1", "1", ""), "refused map 3 33"},
        {grid("1", "1", "."), "refused map 3 34"},
        {grid("1", "1", "\n"), "refused map 3 33"},
        {grid("1", "1", "..\n"), "refused map 3 34"},
        {grid("1", "1", ".x"), "refused map 3 34"},
        {grid("1", "1", ".\r\n"), "refused map 3 34"},
        {grid("1", "1", "\r\n"), "refused map 4 33"},
        {grid("1", "1", " \n"), "refused map 4 33"},
        {grid("1", "1", "g\n"), "refused map 4 33"},
        {grid("1", "1", ".\n."), "refused map 3 35"},
        {grid("1", "1", ".\n\n"), "refused map 3 35"},
        {grid("2", "1", ".\n"), "refused map 3 35"},
        {grid("2", "2", "..\n.\n"), "refused map 3 37"},
        {grid("1", "7", "G@OTSW.\n"), "least 0"},
        {grid("1", "1", "@\n"), "least 0"},
    };
}

// How far it is between the first place and the last of the largest floors.
std::vector<Limit> far_trips() {
    const File line = ListMap(1024).line(0, 1023).file, open_grid = grid("32", "32", rows(32, 32));
    const auto plan = [](int claim, int start, int target) {
        return Plan(claim, 1).trip(start, target).close().settle().file;
    };
    return {
        {"line", line, plan(1023, 0, 1023), "unshown 1"},
        {"line, a step less", line, plan(1024, 0, 1023), "refused call 20 9"},
        {"line back", line, plan(1023, 1023, 0), "unshown 1"},
        {"line back, a step less", line, plan(1024, 1023, 0), "refused call 20 9"},
        {"grid", open_grid, plan(62, 0, 1023), "unshown 1"},
        {"grid, a step less", open_grid, plan(63, 0, 1023), "refused call 20 9"},
        {"grid back", open_grid, plan(62, 1023, 0), "unshown 1"},
        {"grid back, a step less", open_grid, plan(63, 1023, 0), "refused call 20 9"},
        {"grid across", open_grid, plan(62, 31, 992), "unshown 1"},
        {"grid across, a step less", open_grid, plan(63, 31, 992), "refused call 20 9"},
    };
}

}  // namespace

std::vector<Limit> map_limits() {
    std::vector<Limit> limits = with_names("list", list_cases());
    for (const Limit &limit : with_names("ring", ring_cases())) limits.push_back(limit);
    for (const Limit &limit : with_names("heading", heading_cases())) limits.push_back(limit);
    for (const Limit &limit : with_names("rows", row_cases())) limits.push_back(limit);
    for (const Limit &limit : far_trips()) limits.push_back(limit);
    return limits;
}

}  // namespace differential

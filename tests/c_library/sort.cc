// The order as std::sort and std::stable_sort need it, beside kohiblad_sort.
#include "kohiblad.h"

#include <algorithm>
#include <cstdio>
#include <cstdlib>
#include <numeric>
#include <string>
#include <string_view>
#include <vector>

static const uint8_t *at(std::string_view bytes) {
    return reinterpret_cast<const uint8_t *>(bytes.data());
}

static std::string parse(std::string_view text) {
    std::string out(4 * text.size() + 8, 0);
    size_t length;
    if (kohiblad_parse(at(text), text.size(), 64, KOHIBLAD_EXPONENTS_FORBIDDEN,
                       reinterpret_cast<uint8_t *>(&out[0]), out.size(), &length)
        != KOHIBLAD_OK) {
        std::abort();
    }
    out.resize(length);
    return out;
}

int main() {
    std::vector<std::string> rows;
    for (int i = 0; i < 3000; i++) {
        unsigned x = i * 2654435761u >> 7;
        std::string number = std::to_string(x % 50) + (x % 3 ? "" : ".0");
        switch (x % 7) {
        case 0: rows.push_back(parse("[" + number + "]")); break;
        case 1: rows.push_back(parse("{\"a\":" + number + "}")); break;
        case 2: rows.push_back(parse("\"" + number + "\"")); break;
        case 3: rows.push_back("no document " + number); break;
        case 4: rows.push_back(parse("null")); break;
        default: rows.push_back(parse(number));
        }
    }
    auto less = [](const std::string &l, const std::string &r) {
        return kohiblad_compare(at(l), l.size(), at(r), r.size(), SIZE_MAX) < 0;
    };
    std::string column;
    std::vector<size_t> offsets = {0}, order(rows.size()), stable(rows.size());
    for (auto &row : rows) {
        column += row;
        offsets.push_back(column.size());
    }
    if (kohiblad_sort(at(column), column.size(), offsets.data(), offsets.size(), SIZE_MAX,
                      order.data(), order.size())
        != KOHIBLAD_OK) {
        return 1;
    }
    std::iota(stable.begin(), stable.end(), size_t(0));
    auto less_at = [&](size_t l, size_t r) { return less(rows[l], rows[r]); };
    std::stable_sort(stable.begin(), stable.end(), less_at);
    std::sort(rows.begin(), rows.end(), less);
    bool ascend = std::is_sorted(rows.begin(), rows.end(), less);
    std::printf("std::sort %s, kohiblad_sort is std::stable_sort: %s\n",
                ascend ? "ascends" : "FAILED", order == stable ? "yes" : "NO");
    return ascend && order == stable ? 0 : 1;
}

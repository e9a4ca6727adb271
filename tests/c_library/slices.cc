// Look-ups in documents of which slices are read: what they find, and what they read for it.
#include "kohiblad.hpp"

#include <cassert>
#include <map>

using kohiblad::Bytes;
using kohiblad::Document;
using kohiblad::Result;
using kohiblad::Status;
using kohiblad::View;

// The slices of bytes that a look-up reads: from where on, and how many. Each byte is read once.
class Reader {
  public:
    explicit Reader(View bytes) : bytes_(bytes) {}
    bool read(std::size_t at, std::uint8_t *out, std::size_t size) {
        if (at > bytes_.size() || size > bytes_.size() - at) return false;
        std::copy_n(bytes_.data() + at, size, out);
        const auto next = read_.lower_bound(at);
        assert(next == read_.end() || at + size <= next->first);
        assert(next == read_.begin() || std::prev(next)->first + std::prev(next)->second <= at);
        read_[at] = size;
        count_ += size;
        return true;
    }
    Result<Document> find(std::size_t size, std::string_view path, std::size_t depth = 64) {
        return kohiblad::read_path(size, [this](auto at, auto *out, auto n) {
            return read(at, out, n);
        }, path, depth);
    }
    std::size_t count() const { return count_; }

  private:
    View bytes_;
    std::map<std::size_t, std::size_t> read_;
    std::size_t count_ = 0;
};

static Result<Document> found_in(View bytes, std::string_view path) {
    return Reader(bytes).find(bytes.size(), path);
}

static void values() {
    const Document row = *Document::parse(R"({"customer": {"town": "Bergen"}, "id": 2.50,
        "lines": [{"n": 2}, {"n": null}, [], {}, true]})");
    for (const auto &[path, text] : std::map<std::string_view, std::string_view>{
             {"$.lines", R"([{"n":2},{"n":null},[],{},true])"},
             {"$.id", "2.50"},
             {"$.customer", R"({"town":"Bergen"})"},
             {"$.customer.town", R"("Bergen")"},
             {"$.lines[0].n", "2"},
             {"$.lines[1].n", "null"},
             {"$.lines[2]", "[]"},
             {"$.lines[#-1]", "true"},
             {"$.lines[#-5]", R"({"n":2})"}})
        assert(*found_in(row, path)->view().text() == text);
    for (std::string_view nowhere :
         {"$.none", "$[0]", "$.lines[5]", "$.lines[#-6]", "$.lines[#]", "$.lines.n", "$.id[0]",
          "$.customer.town.x", "$.lines[18446744073709551615]"})
        assert(found_in(row, nowhere).status() == KOHIBLAD_NONE);
    for (std::string_view no_path : {"", "lines", "$.lines[*]", "$.lines["})
        assert(found_in(row, no_path).status() == KOHIBLAD_OTHER_KIND);
    assert(*found_in(*Document::parse("7"), "$")->view().int64() == 7);
    assert(found_in(*Document::parse("7"), "$.a").status() == KOHIBLAD_NONE);
    assert(found_in(*Document::parse("7"), "$[0]").status() == KOHIBLAD_NONE);
    assert(Reader(row).find(row.bytes().size(), "$.lines", 1).status() == KOHIBLAD_INVALID_JSONB);
}

// The text of an object of 100 members of 3 KB, of which one is an array of them.
static std::string long_text() {
    std::string items, members;
    for (int i = 0; i < 100; i++) {
        const std::string text = '"' + std::to_string(1000 + i) + std::string(3000, 'x') + '"';
        items += (i ? "," : "") + text;
        members += "\"key" + std::to_string(100 + i) + "\":" + (i == 50 ? "[]" : text) + ',';
    }
    return '{' + members + "\"list\":[" + items + "]}";
}

static void counts() {
    const Document row = *Document::parse(long_text());
    const std::size_t size = row.bytes().size();
    assert(size > 550000);
    struct {
        std::string_view path;
        std::size_t most;
        bool is_there;
    } asked[] = {{"$.key100", 4096 + 3004, true},    {"$.key199", 4096 + 3004, true},
                 {"$.key150[0]", 2 * 4096, false},   {"$.key200", 4096, false},
                 {"$.list[#-1]", 2 * 4096 + 3004, true}, {"$.list[100]", 2 * 4096, false}};
    for (const auto &it : asked) {
        Reader reader(row);
        const Result<Document> found = reader.find(size, it.path);
        assert(bool(found) == it.is_there && reader.count() <= it.most);
        if (found) assert(*found->view().text() == *row.view().find_at(it.path).text());
    }
    // The end of what can be read is a refusal.
    assert(Reader(View(row.bytes().data(), 10000)).find(size, "$.key199").status()
           == KOHIBLAD_INVALID_EOF);
    assert(Reader(View()).find(0, "$").status() == KOHIBLAD_INVALID_JSONB);
    assert(Reader(View()).find(0, "$.a").status() == KOHIBLAD_INVALID_EOF);
}

// Of bytes that are cut or changed a look-up finds what it finds in all of them, or refuses.
static void changed_bytes() {
    const Document row = *Document::parse(
        R"({"a": [1, "text", {"b": [true, null, 12.5]}], "b": {"a": {}}, "list": [[], "x"]})");
    std::uint32_t state = 89;
    const auto next = [&](std::size_t count) {
        state = state * 1664525 + 1013904223;
        return (state >> 8) % count;
    };
    std::size_t count = 0;
    for (int round = 0; round < 20000; round++) {
        Bytes bytes = row.bytes();
        for (std::size_t changes = next(3); changes > 0; changes--)
            bytes[next(bytes.size())] = static_cast<std::uint8_t>(next(256));
        if (next(2)) bytes.resize(next(bytes.size() + 1));
        bytes.shrink_to_fit();
        for (std::string_view path : {"$.a[2].b[#-1]", "$.b.a", "$.list[0]", "$.none", "$"}) {
            const Result<Document> found = found_in(bytes, path);
            if (!View(bytes).is_document()) continue;
            const kohiblad::Node node = View(bytes).find_at(path);
            assert(found.status() == node.status());
            if (found) assert(found->bytes() == node.document()->bytes());
            count++;
        }
    }
    assert(count > 10000);
}

int main() {
    values();
    counts();
    changed_bytes();
}

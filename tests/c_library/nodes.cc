// Values in place: walks over items and members, of documents and of bytes that are none, what is
// found and selected, and what a node holds.
#include "kohiblad.hpp"

#include <cassert>
#include <sstream>

#if __cplusplus >= 202002L
#include <iterator>
#include <ranges>
#include <span>

static_assert(std::forward_iterator<kohiblad::WalkIterator<kohiblad::Node>>);
static_assert(std::ranges::forward_range<kohiblad::View>);
static_assert(std::ranges::forward_range<kohiblad::Members>);
static_assert(std::is_constructible_v<std::span<const std::uint8_t>, kohiblad::ByteSpan>);
#endif

using kohiblad::Bytes;
using kohiblad::Document;
using kohiblad::Kind;
using kohiblad::Member;
using kohiblad::Node;
using kohiblad::Status;
using kohiblad::View;

static Document document_of(std::string_view text) {
    return *Document::parse(text);
}

// The keys and values that a walk over members meets.
static std::string members_of(View view) {
    std::ostringstream out;
    for (auto [key, value] : view.members()) out << key << '=' << value << ' ';
    return out.str();
}

static void walks() {
    const Document row = document_of(R"({"b": [1, {"c": null}], "a": "x", "": 2.50})");
    assert(members_of(row) == R"(=2.50 a="x" b=[1,{"c":null}] )");
    std::ostringstream values;
    for (Node value : row) values << value << ' ';
    assert(values.str() == R"(2.50 "x" [1,{"c":null}] )");

    int sum = 0;
    for (Node item : *Document::parse("[1, 2, 3]")) sum += static_cast<int>(*item.int64());
    assert(sum == 6);
    for (auto at = row.begin(); at != row.end(); ++at)
        assert(at.key() != "a" || *at.value().string() == "x");
    const Node inner = row.view()["b"];
    assert(inner.count() == 2 && std::distance(inner.begin(), inner.end()) == 2);
    const Node one = *inner.begin();
    assert(one.type() == KOHIBLAD_TYPE_NUMBER && one.payload().size() == 2);
    assert((*inner[1].members().begin()).key == "c");
    auto first = inner.begin();
    assert(first++ == inner.begin() && first != inner.begin() && ++first == inner.end());

    for (std::string_view empty : {"[]", "{}", "5", "null", R"("text")"}) {
        const Document none = document_of(empty);
        assert(none.begin() == none.end());
    }
    assert(row.view().keys()->size() == 3 && row.view().keys()->at(2) == "b");
    assert(document_of("{}").view().keys()->empty());
}

// A walk over many children takes time in proportion to their number: one that is quadratic would
// not end within the time of a test.
static void long_walk() {
    std::string text = "[0";
    for (int i = 1; i < 1000000; i++) text += ",0";
    const Document row = document_of(text + "]");
    std::size_t count = 0;
    for (Node item : row) count += item.type() == KOHIBLAD_TYPE_NUMBER;
    assert(count == 1000000);
}

// What a walk over the bytes ends with: the status of the last node.
static Status last_of(View view) {
    Status last;
    for (Node item : view) last = item.status();
    return last;
}

static void refused_walks() {
    const Document row = document_of(R"(["ab", [1, 2], true])");
    assert(last_of(row) == Status());
    const std::size_t whole = row.bytes().size();
    for (std::size_t size = 0; size < whole; size++)
        assert(last_of(View(row.bytes().data(), size)) != Status());
    assert(last_of(View(row.bytes().data(), 3)) == KOHIBLAD_INVALID_EOF);
    assert(last_of(View(row.bytes().data(), whole - 1)) == KOHIBLAD_INVALID_JSONB);
    assert(last_of(View()) == KOHIBLAD_INVALID_EOF);
    for (std::string_view other : {"[1]", "5"}) {
        const Document array = document_of(other);
        std::size_t count = 0;
        for (const Member member : array.view().members()) {
            assert(member.key.empty() && member.value.status() == KOHIBLAD_OTHER_KIND);
            count++;
        }
        assert(count == 1 && array.view().keys().status() == KOHIBLAD_OTHER_KIND);
    }
    assert(View().keys().status() == KOHIBLAD_INVALID_EOF);

    // A refusal goes on to what is asked of it.
    const Node none = row.view()[7];
    assert(!none && none.status() == KOHIBLAD_NONE && none["a"][1].status() == KOHIBLAD_NONE);
    assert(none.text().status() == KOHIBLAD_NONE && none.document().status() == KOHIBLAD_NONE);
    assert(none.kind().status() == KOHIBLAD_NONE && none.count() == 0);
    assert(none.int64().status() == KOHIBLAD_NONE && none.string().status() == KOHIBLAD_NONE);
    // It has no children, or a walk over all that is below a value would not end.
    assert(none.begin() == none.end() && none.members().begin() == none.members().end());
    const Node scalar = row.view()[0];
    assert(scalar.begin() == scalar.end());
    assert((*scalar.members().begin()).value.status() == KOHIBLAD_OTHER_KIND);
}

// Asks all of a value, of its children, and so on, and returns how many there are.
static std::size_t ask(const Node &node) {
    std::size_t count = 1;
    (void)node.int64();
    (void)node.decimal();
    (void)node.unscaled(2);
    (void)node.nearest_double();
    (void)node.boolean();
    if (const auto text = node.string()) count += text->size() == SIZE_MAX;
    (void)node.text();
    (void)node["a"].kind();
    (void)node[1].kind();
    if (const auto document = node.document()) (void)document->view().kind();
    for (const Node child : node) count += ask(child);
    for (const Member member : node.members()) count += member.value.members().begin().key() == "a";
    return count;
}

// Documents with some bytes changed, in blocks of their size, so that the sanitizers see each read
// past the end.
static void changed_bytes() {
    const Document row = document_of(
        R"({"a": [1, "two", {"b": 2.50, "c": [true, null, -7]}], "d": {"e": {}, "f": [[]]}})");
    unsigned state = 1;
    const auto next = [&](std::size_t below) {
        state = state * 1103515245u + 12345u;
        return (state >> 8) % below;
    };
    std::size_t count = 0;
    for (int round = 0; round < 20000; round++) {
        Bytes bytes(row.bytes().begin(),
                    row.bytes().end() - static_cast<std::ptrdiff_t>(round % 3 ? 0 : next(20)));
        for (std::size_t changes = 1 + next(4); changes > 0; changes--) {
            const std::size_t byte = next(2) ? next(256) : next(8) << 4;
            bytes[next(bytes.size())] = static_cast<std::uint8_t>(byte);
        }
        bytes.shrink_to_fit();
        const View view = bytes;
        for (const Node child : view) count += ask(child);
        (void)view.keys();
        (void)view.select("$.a[*].b");
    }
    assert(count > 20000);
}

static void found() {
    const Document row = document_of(R"({"customer": {"town": "Bergen"},
        "lines": [{"n": 2, "price": 1.50}, {"n": 1, "price": 3}]})");
    const View view = row;
    assert(*view["customer"]["town"].string() == "Bergen");
    assert(*view["lines"][1]["n"].int64() == 1 && !view["lines"][2] && !view["lines"]["n"]);
    assert(!view["none"] && !view[0] && view["customer"][0].status() == KOHIBLAD_NONE);
    assert(*view.find_at("$.lines[#-1].price").int64() == 3);
    assert(view.find_at("/lines/0/n").kind().value_or(Kind::null) == Kind::number);
    assert(view.find_at("$.lines[").status() == KOHIBLAD_OTHER_KIND);
    assert(view.find_at("$.none").status() == KOHIBLAD_NONE);
    assert(view.find_at("$.lines", 1).status() == KOHIBLAD_INVALID_JSONB);
    assert(*document_of("7").view().find_at("$").int64() == 7);

    assert(view.query("$.lines[*] ? (@.price > 2).n")->view() == document_of("[1]"));
    assert(view.query("$.lines.size()")->view() == document_of("[2]"));
    assert(view.query("$.none")->view() == document_of("[]"));
    assert(view.query("lines").status() == KOHIBLAD_OTHER_KIND);
    assert(view.query("strict $.none").status() == KOHIBLAD_MEMBER_NOT_FOUND);
    assert(view.query("strict $.none", View(), true)->view() == document_of("[]"));
    const Document least = document_of(R"({"least": 2})");
    assert(*view.path_exists("$.lines[*] ? (@.price > $least)", least));
    assert(!*view.path_exists("$.lines[*] ? (@.price > 9)"));
    assert(*view.matches("$.lines[*].price > $least", least));
    assert(view.matches("$.lines[*].price > $least").status() == KOHIBLAD_UNDEFINED_VARIABLE);
    assert(view.matches("$.customer.town > 2").status() == KOHIBLAD_NONE);
    assert(view.matches("$.lines").status() == KOHIBLAD_BOOLEAN_REQUIRED);
    assert(view.matches("$.lines", View(), true).status() == KOHIBLAD_NONE);
    assert(kohiblad::path_report("$.lines").status() == KOHIBLAD_NONE);
    const auto report = kohiblad::path_report("$.lines[0:2]");
    assert(report->find("\n         ^ expected `]` at byte 9") == 12);

    const auto prices = view.select("$.lines[*].price");
    assert(prices->size() == 2 && *prices->at(0).text() == "1.50");
    assert(*view.select("$.lines[*]?(@.price > 2).n")->at(0).int64() == 1);
    assert(view.select("$.none")->empty());
    assert(view.select("lines").status() == KOHIBLAD_OTHER_KIND);
    std::string many = "[1";
    for (int i = 0; i < 100; i++) many += ",1";
    assert(document_of(many + "]").view().select("$[*]")->size() == 101);

    assert(*view.exists("lines") && !*view.exists("town"));
    assert(*document_of(R"(["a"])").view().exists("a"));
    assert(view.exists("\xff").status() == KOHIBLAD_INVALID_UTF8);
    assert(view.exists("a", 1).status() == KOHIBLAD_INVALID_JSONB);
}

static void scalars() {
    const Document row = document_of(
        R"([null, true, false, -12.50, "\u00e9", [], {}, 9223372036854775808])");
    const View view = row;
    const Kind kinds[] = {Kind::null, Kind::boolean, Kind::boolean, Kind::number, Kind::string,
                          Kind::array, Kind::object, Kind::number};
    for (std::size_t i = 0; i < view.count(); i++) {
        assert(*view[i].kind() == kinds[i]);
        // The value in place and its own document are one.
        assert(*view[i].text() == *view[i].document()->view().text());
        assert(*view[i].document() == *view.item(i));
    }
    assert(*view[1].boolean() && !*view[2].boolean());
    assert(view[0].boolean().status() == KOHIBLAD_OTHER_KIND);
    assert(view[3].decimal()->scale == 2 && *view[3].unscaled(3) == -12500);
    assert(view[3].unscaled(0).status() == KOHIBLAD_PAST_RANGE);
    assert(view[3].nearest_double()->value == -12.5 && view[3].nearest_double()->error == 0);
    assert(view[3].int64().status() == KOHIBLAD_PAST_RANGE);
    assert(view[7].int64().status() == KOHIBLAD_PAST_RANGE);
    assert(*view[4].string() == "\xc3\xa9" && view[4].int64().status() == KOHIBLAD_OTHER_KIND);
    assert(view[5].string().status() == KOHIBLAD_OTHER_KIND);
    assert(view[5].decimal().status() == KOHIBLAD_OTHER_KIND);
    assert(*document_of("[[1]]").view()[0].pretty() == "[\n  1\n]");
    assert(document_of("[[1]]").view()[0].text(0).status() == KOHIBLAD_INVALID_JSONB);

    assert(*document_of("1.50").view().unscaled(2) == 150);
    assert(document_of("1.50").view().unscaled(0).status() == KOHIBLAD_PAST_RANGE);
    assert(document_of("0.1").view().nearest_double()->value == 0.1);
    assert(document_of("0.1").view().nearest_double()->error > 0);
    assert(document_of("true").view().nearest_double().status() == KOHIBLAD_OTHER_KIND);

    // The payload of no number.
    const std::uint8_t bytes[100] = {0};
    const kohiblad_place place = {KOHIBLAD_OK, KOHIBLAD_TYPE_NUMBER, 0, sizeof bytes};
    const Node odd(View(bytes, sizeof bytes), place);
    assert(odd.int64().status() == KOHIBLAD_INVALID_JSONB);
    assert(odd.text().status() == KOHIBLAD_INVALID_JSONB);
}

static void streams() {
    std::ostringstream out;
    const Document row = document_of(R"({"a": [1, 2.50]})");
    out << row << ' ' << row.view() << ' ' << row.view()["a"];
    assert(out.str() == R"({"a":[1,2.50]} {"a":[1,2.50]} [1,2.50])" && out.good());
    out << row.view()["b"];
    assert(out.fail());
    out.clear();
    out << View();
    assert(out.fail() && out.str().size() == 38);
    const std::string deep = std::string(65, '[') + std::string(65, ']');
    out.clear();
    out << *Document::parse(deep, 65);
    assert(out.fail() && out.str().size() == 38);
}

static void bytes() {
    const Document row = document_of("[1]");
    const kohiblad::ByteSpan bytes = row.view().bytes();
    assert(Bytes(bytes.begin(), bytes.end()) == row.bytes() && bytes.data() == row.view().data());
    assert(bytes.size() == row.view().size());
}

int main() {
    walks();
    long_walk();
    refused_walks();
    changed_bytes();
    found();
    scalars();
    streams();
    bytes();
}

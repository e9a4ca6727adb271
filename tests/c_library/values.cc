// Documents of values, what compares them and puts them together, and many rows: their order and
// their members as columns.
#include "kohiblad.hpp"

#include <cassert>
#include <clocale>
#include <cmath>
#include <map>
#include <sstream>

using kohiblad::ArrayBuilder;
using kohiblad::Document;
using kohiblad::ObjectBuilder;
using kohiblad::Result;
using kohiblad::Rows;
using kohiblad::Status;
using kohiblad::View;

static Document document_of(std::string_view text) {
    return *Document::parse(text);
}

static std::string text_of(const Result<Document> &it) {
    return it ? *it->view().text() : it.status().name();
}

static void scalars() {
    assert(text_of(Document::of(nullptr)) == "null");
    assert(text_of(Document::of(true)) == "true" && text_of(Document::of(false)) == "false");
    assert(text_of(Document::of(5)) == "5" && text_of(Document::of(-5L)) == "-5");
    assert(text_of(Document::of(INT64_MIN)) == "-9223372036854775808");
    assert(text_of(Document::of(UINT64_MAX)) == "18446744073709551615");
    assert(text_of(Document::of(static_cast<signed char>(-1))) == "-1");
    assert(text_of(Document::of(static_cast<unsigned short>(65535))) == "65535");
    assert(text_of(Document::of("a\n")) == R"("a\n")");
    assert(text_of(Document::of(std::string("b"))) == R"("b")");
    assert(text_of(Document::of(std::string_view("c"))) == R"("c")");
    assert(text_of(Document::of("\xff")) == "InvalidUtf8");
    assert(text_of(Document::of(std::optional<int>(7))) == "7");
    assert(text_of(Document::of(std::optional<int>())) == "null");
    assert(text_of(Document::of(document_of("[1]"))) == "[1]");
    assert(text_of(Document::of(Document::parse("[1"))) == "InvalidJson");
    assert(text_of(Document::of(document_of("[1]").view())) == "[1]");
    assert(text_of(Document::of(View())) == "InvalidJsonb");
    assert(text_of(Document::of(document_of("[[2]]").view()[0])) == "[2]");
    assert(text_of(Document::of(document_of("[]").view()[0])) == "None");
    // What documents are made of is canonical, as what is parsed.
    assert(Document::of(5)->bytes() == document_of("5").bytes());
    assert(Document::of("x")->bytes() == document_of("\"x\"").bytes());
}

static void decimals() {
    assert(text_of(Document::of(kohiblad::decimal_of(150, 2))) == "1.50");
    assert(text_of(Document::of(kohiblad::decimal_of(-1, 3))) == "-0.001");
    assert(text_of(Document::of(kohiblad::decimal_of(1, 256))) == "InvalidJsonb");
    assert(text_of(Document::of(kohiblad_as_decimal(nullptr, 0))) == "InvalidEOF");

    assert(text_of(Document::of(1.5)) == "1.5" && text_of(Document::of(0.1)) == "0.1");
    assert(text_of(Document::of(-0.001)) == "-0.001" && text_of(Document::of(100.0)) == "100");
    assert(text_of(Document::of(0.0)) == "0" && text_of(Document::of(-0.0)) == "0");
    assert(text_of(Document::of(0.1f)) == "0.1");
    assert(text_of(Document::of(16777216.0f)) == "16777216");
    assert(text_of(Document::of(0.1 + 0.2)) == "0.30000000000000004");
    assert(text_of(Document::of(9007199254740993.0)) == "9007199254740992");
    assert(text_of(Document::of(1e22)) == "10000000000000000000000");
    assert(Document::of(1e-255)->view().decimal()->scale == 255);
    for (double odd : {1e39, -1e300, 1e-256, 5e-324, HUGE_VAL, -HUGE_VAL, std::nan("")})
        assert(text_of(Document::of(odd)) == "PastRange");
    // Each double that a document holds is read back as it was.
    double number = 1.0 / 3;
    for (int i = 0; i < 20000; i++) {
        number = std::fmod(number * 1e6 + 0.12345678901234567 * i, i % 3 ? 1e3 : 1e15);
        const Document back = *Document::of(number);
        assert(back.view().nearest_double()->value == number);
        const auto real = static_cast<float>(number);
        const Document again = *Document::of(real);
        assert(static_cast<float>(again.view().nearest_double()->value) == real);
    }
    if (std::setlocale(LC_ALL, "de_DE.UTF-8")) assert(text_of(Document::of(1.5)) == "1.5");
    std::setlocale(LC_ALL, "C");
}

static void containers() {
    assert(text_of(Document::of({1, "two", nullptr, 2.5, true})) == R"([1,"two",null,2.5,true])");
    assert(text_of(Document::of({"a", "b"})) == R"(["a","b"])");
    assert(text_of(Document::of({1})) == "[1]");
    assert(text_of(Document::of({{"who", "Ada"}, {"id", 7}})) == R"({"id":7,"who":"Ada"})");
    assert(text_of(Document::of({{"a", "b"}})) == R"({"a":"b"})");
    const auto tags = Document::of({"x", "y"}), at = Document::of({{"n", 1}});
    assert(text_of(Document::of({{"tags", tags}, {"at", at}}))
           == R"({"at":{"n":1},"tags":["x","y"]})");
    assert(text_of(Document::of({{"a", 1}, {"a", 2}})) == "ObjectDuplicateKey");
    assert(text_of(Document::of({{"\xff", 1}})) == "InvalidUtf8");
    assert(text_of(Document::of({{"a", Document::of({"\xff"})}})) == "InvalidUtf8");

    assert(text_of(Document::array_of(std::vector<int>{3, 1})) == "[3,1]");
    assert(text_of(Document::array_of(std::vector<Document>())) == "[]");
    const std::map<std::string, double> sums = {{"b", 1.5}, {"a", 2}};
    assert(text_of(Document::object_of(sums)) == R"({"a":2,"b":1.5})");

    ArrayBuilder array;
    ObjectBuilder object;
    assert(text_of(array.build()) == "[]" && text_of(object.build()) == "{}");
    array.add(1).add("x").add(Document::of({{"k", nullptr}}));
    object.add("b", array.build()).add("a", 2);
    assert(array.size() == 3 && object.size() == 2);
    assert(text_of(object.build()) == R"({"a":2,"b":[1,"x",{"k":null}]})");
    assert(text_of(object.build(1)) == "InvalidJsonb");
    array.add(Document::parse("[1")).add("\xff").add(4);
    assert(text_of(array.build()) == "InvalidJson");
    assert(text_of(object.add("c", HUGE_VAL).build()) == "PastRange");
}

static void comparisons() {
    const Document five = document_of("5.0"), six = document_of("6"), text = document_of("\"5\"");
    assert(five == document_of("5") && five != six && five < six && six > five && five <= six);
    assert(six >= five && five.view() == five && !(five == text) && five < text);
#if defined(__cpp_lib_three_way_comparison)
    assert((five <=> document_of("5")) == 0 && (five <=> six) < 0);
    static_assert(std::is_same_v<decltype(five <=> six), std::weak_ordering>);
#endif
    assert(text_of(document_of(R"({"a": 1, "b": 2})").view().concat(document_of(R"({"b": 3})")))
           == R"({"a":1,"b":3})");
    assert(text_of(document_of("[1]").view().concat(document_of("2"))) == "[1,2]");
    assert(text_of(View().concat(five)) == "InvalidJsonb");
}

static std::vector<Document> rows_of(std::initializer_list<std::string_view> texts) {
    std::vector<Document> rows;
    for (std::string_view text : texts) rows.push_back(document_of(text));
    return rows;
}

static std::string texts_of(const std::vector<Document> &rows) {
    std::ostringstream out;
    for (const Document &row : rows) out << row << ' ';
    return out.str();
}

static void order() {
    std::vector<Document> rows = rows_of({"[2]", "10", "\"a\"", "9.0", "9", "true", "{}", "null"});
    const auto numbers = *Rows(rows).sorted_order();
    std::vector<Document> right;
    for (std::size_t number : numbers) right.push_back(rows[number]);
    assert(kohiblad::sort(rows) == Status());
    assert(texts_of(rows) == texts_of(right));
    assert(texts_of(rows) == "true 9.0 9 10 \"a\" {} [2] null ");

    rows = rows_of({R"({"t": "b", "n": 1})", R"({"n": 0})", R"({"t": "a", "n": 2})",
                    R"({"t": "b", "n": 0.5})", R"({"t": "a", "n": 2.0})", "7"});
    assert(kohiblad::sort_by(rows, {"$.t", "$.n"}) == Status());
    assert(texts_of(rows) == R"(7 {"n":0} {"n":2,"t":"a"} {"n":2.0,"t":"a"} {"n":0.5,"t":"b"} )"
                             R"({"n":1,"t":"b"} )");
    const std::string before = texts_of(rows);
    assert(kohiblad::sort_by(rows, {"$.t[*]"}) == KOHIBLAD_OTHER_KIND);
    assert(kohiblad::sort_by(rows, {"$.t"}, 0) == KOHIBLAD_INVALID_JSONB);
    assert(texts_of(rows) == before);
    std::vector<Document> none;
    assert(kohiblad::sort(none) == Status() && none.empty());
}

static void members() {
    Rows rows(rows_of({R"({"n": 1.50, "t": "x", "b": true})", R"({"n": 2, "t": null})",
                       R"({"n": "many", "t": "\u00e9z", "b": false})"}));
    rows.add(View());
    assert(rows.size() == 4 && rows.offsets().size() == 5);
    assert(*rows[1]["n"].int64() == 2 && rows.bytes().size() == rows.offsets().back());

    const auto numbers = rows.take_decimal("$.n", 2);
    assert(numbers->size() == 4 && *(*numbers)[0] == 150 && *(*numbers)[1] == 200);
    assert(!(*numbers)[2] && numbers->states[2] == KOHIBLAD_ROW_UNFIT && numbers->unfit == 1);
    assert(numbers->first_unfit == 2 && numbers->states[3] == KOHIBLAD_ROW_ABSENT);
    assert(rows.take_decimal("$.n", 0)->unfit == 2);
    assert(rows.take_decimal("$.n", 256).status() == KOHIBLAD_INVALID_JSONB);
    const auto whole = rows.take_int64("$.n");
    assert(*(*whole)[1] == 2 && whole->unfit == 2 && whole->first_unfit == 0);

    const auto texts = rows.take_text("$.t");
    assert(texts->size() == 4 && *(*texts)[0] == "x" && *(*texts)[2] == "\xc3\xa9z");
    assert(!(*texts)[1] && texts->states[1] == KOHIBLAD_ROW_NULL && !(*texts)[3]);
    const auto truths = rows.take_boolean("$.b");
    assert(*(*truths)[0] == 1 && *(*truths)[2] == 0 && !(*truths)[1] && truths->unfit == 0);
    assert(rows.take_date("$.n")->unfit == 3 && rows.take_timestamp("$.none")->unfit == 0);
    assert(rows.take_int64("n").status() == KOHIBLAD_OTHER_KIND);
    assert(rows.take_text("$.t[*]").status() == KOHIBLAD_OTHER_KIND);
    assert(Rows().take_text("$.t")->size() == 0 && Rows().take_int64("$.t")->size() == 0);
    assert(Rows().sorted_order()->empty());
    // Texts that are longer than what was guessed.
    Rows longer;
    longer.add(*Document::of({{"t", std::string(1000, 'a')}}));
    assert((*longer.take_text("$.t"))[0]->size() == 1000);
}

int main() {
    scalars();
    decimals();
    containers();
    comparisons();
    order();
    members();
}

// The classes of kohiblad.hpp: what they return of documents, and of what is refused.
#include "kohiblad.hpp"

#include <cassert>

using kohiblad::Bytes;
using kohiblad::Document;
using kohiblad::Kind;
using kohiblad::Result;
using kohiblad::Status;
using kohiblad::View;

static Document document_of(std::string_view text) {
    return *Document::parse(text);
}

static std::string text_of(const Result<Document> &it) {
    return it ? *it->view().text() : it.status().name();
}

static void scalars() {
    const Document row = document_of(R"({"a": [1, -2, 1.50], "b": "x\ny", "c": true, "d": null})");
    const View view = row;
    assert(*view.kind() == Kind::object && view.count() == 4 && view.is_document());
    assert(*view.at("$.a[1]")->view().int64() == -2);
    const kohiblad_decimal price = *view.at("/a/2")->view().decimal();
    assert(price.low == 150 && price.scale == 2 && price.high == 0);
    const Document text = *view.get("b");
    assert(*text.view().string() == "x\ny");
    assert(*view.get("c")->view().boolean() && *view.get("d")->view().kind() == Kind::null);
    assert(*view.get("a")->view().item(0)->view().int64() == 1);
    assert(text.view().int64().status() == KOHIBLAD_OTHER_KIND);
    assert(view.get("e").status() == KOHIBLAD_NONE && !view.at("{a,9}"));
    assert(view.at("$.a[").status() == KOHIBLAD_OTHER_KIND);
    assert(*view.at("{b}")->view().text() == "\"x\\ny\"");
    assert(view.pretty()->find("\n  \"a\": [") != std::string::npos);
}

static void changes() {
    const Document row = document_of(R"({"id": 7, "tags": ["a"]})"), eight = document_of("8");
    const View view = row;
    assert(text_of(view.put("$.id", eight)) == R"({"id":8,"tags":["a"]})");
    assert(text_of(view.insert("/tags/0", eight)) == R"({"id":7,"tags":[8,"a"]})");
    assert(text_of(view.remove("{tags,-1}")) == R"({"id":7,"tags":[]})");
    assert(text_of(view.put("$.x.y", eight)) == *view.text());
    assert(text_of(view.create("$.x.y", eight)) == R"({"id":7,"tags":["a"],"x":{"y":8}})");
    assert(text_of(view.merge(document_of(R"({"id": null})"))) == R"({"tags":["a"]})");
    assert(text_of(view.put("$.*", eight)) == "OtherKind");
    assert(*view.contains(document_of(R"({"tags": ["a"]})")) && !*view.contains(eight));
    assert(view.contains(row, 0).status() == KOHIBLAD_TOO_MANY_STEPS);
    assert(*document_of("5.0").view().key() == *document_of("5").view().key());
    assert(kohiblad::compare(document_of("5.0"), document_of("5")) == 0);
}

static void refusals() {
    assert(Document::parse("[1,]").status() == KOHIBLAD_INVALID_JSON);
    assert(kohiblad::fault_of("[1,]").offset == 3);
    assert(kohiblad::fault_words("[1,]") == "expected a value at byte 3, found ']'");
    assert(std::string(Document::parse("[[]]", 1).status().name()) == "TooDeep");
    assert(Document::checked(Bytes{}).status() == Status(KOHIBLAD_INVALID_JSONB));
    assert(Document::checked(document_of("[[]]").bytes(), 1).status() != Status());
    assert(Document::checked(document_of("[[]]").bytes())->bytes().size() == 12);
    const View none;
    assert(!none.is_document() && !none.kind() && none.count() == 0 && !none.get("a"));
    assert(none.int64().value_or(-1) == -1 && *none.text() == "null");
}

int main() {
    scalars();
    changes();
    refusals();
}

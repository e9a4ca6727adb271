/* Kohiblad for C++17: classes over the functions of kohiblad.h, which says what each returns.
 *
 *     if (auto row = kohiblad::Document::parse(R"({"id": 7, "price": 1.50})"))
 *         for (auto [key, value] : row->view().members())
 *             std::cout << key << " is " << value << '\n';
 *
 * A DOCUMENT has bytes of its own. A VIEW is a pointer and a size, as std::span: it looks at bytes
 * that are elsewhere, which may be any. A NODE looks at a value inside of such bytes, with nothing
 * copied. Neither may outlive the bytes that it looks at: those of a document are there until it is
 * assigned to or destroyed, and move with it.
 *
 * A RESULT has a value, or the status with which the call was refused, as std::expected: ask for it
 * by `if`; the value of a refusal ends the program. A node has a value or such a status too, which
 * each of its calls then returns. So `row["customer"]["town"].string()` is NONE if either member is
 * missing. Nothing here throws but the containers of the standard library, if they get no memory,
 * so that a program can do without exceptions, and then ends there.
 *
 * DEPTH is 64 levels where none is given, which need 136 KB of stack in `put`, `concat` and their
 * like and 72 KB elsewhere. Operators and streams have this depth: bytes that nest deeper compare
 * as bytes that are not a document, and writing them to a stream fails. */
#ifndef KOHIBLAD_HPP
#define KOHIBLAD_HPP

#include "kohiblad.h"

#include <algorithm>
#include <cmath>
#include <cstddef>
#include <cstdint>
#include <cstdio>
#include <cstdlib>
#include <cstring>
#include <initializer_list>
#include <iterator>
#include <limits>
#include <optional>
#include <ostream>
#include <string>
#include <string_view>
#include <type_traits>
#include <utility>
#include <vector>

#if defined(__cpp_impl_three_way_comparison) && __has_include(<compare>)
#include <compare>
#endif

namespace kohiblad {

class Document;
class Node;
class Value;
class Members;
template <typename Element> class WalkIterator;
using Bytes = std::vector<std::uint8_t>;

inline constexpr std::size_t usual_depth = 64;

/* What a call returned: enum kohiblad_status, with its name and its reason. */
class Status {
  public:
    constexpr Status(std::uint32_t number = KOHIBLAD_OK) : number_(number) {}
    constexpr std::uint32_t number() const { return number_; }
    const char *name() const { return kohiblad_status_text(number_); }
    const char *reason() const { return kohiblad_status_reason(number_); }
    friend constexpr bool operator==(Status left, Status right) {
        return left.number_ == right.number_;
    }
    friend constexpr bool operator!=(Status left, Status right) { return !(left == right); }

  private:
    std::uint32_t number_;
};

/* A value, or the status of a refusal. */
template <typename T> class [[nodiscard]] Result {
  public:
    Result(T value) : value_(std::move(value)) {}
    Result(Status refusal) : status_(refusal) {}
    explicit operator bool() const { return value_.has_value(); }
    Status status() const { return status_; }
    const T &operator*() const & { return value(); }
    const T *operator->() const { return &value(); }
    /* By value, so that `for (auto item : *Document::parse(text))` keeps what it walks over. */
    T operator*() && {
        value();
        return std::move(*value_);
    }
    const T &value() const {
        if (!value_) std::abort();
        return *value_;
    }
    T value_or(T other) const { return value_ ? *value_ : std::move(other); }

  private:
    std::optional<T> value_;
    Status status_;
};

inline const std::uint8_t *bytes_of(std::string_view text) {
    return reinterpret_cast<const std::uint8_t *>(text.data());
}

/* What a call writes to `out`: it is called again where that did not fit. */
template <typename Out, typename Call> Result<Out> written(std::size_t guess, Call call) {
    Out out;
    std::size_t length = guess;
    Status status = KOHIBLAD_NO_ROOM;
    while (status == KOHIBLAD_NO_ROOM) {
        out.resize(length);
        status = call(reinterpret_cast<std::uint8_t *>(out.data()), out.size(), &length);
    }
    if (status != KOHIBLAD_OK) return status;
    out.resize(length);
    return Result<Out>(std::move(out));
}

enum class Kind { null, boolean, number, string, extension, array, object };

/* A pointer to bytes and their number, as std::span of C++20, which takes it. */
class ByteSpan {
  public:
    constexpr ByteSpan(const std::uint8_t *data, std::size_t size) : data_(data), size_(size) {}
    constexpr const std::uint8_t *data() const { return data_; }
    constexpr std::size_t size() const { return size_; }
    constexpr const std::uint8_t *begin() const { return data_; }
    constexpr const std::uint8_t *end() const { return data_ + size_; }

  private:
    const std::uint8_t *data_;
    std::size_t size_;
};

/* The bytes of a document, which are elsewhere. Any bytes may be given. */
class View {
  public:
    constexpr View() : data_(nullptr), size_(0) {}
    constexpr View(const std::uint8_t *data, std::size_t size) : data_(data), size_(size) {}
    View(const Bytes &bytes) : View(bytes.data(), bytes.size()) {}
    constexpr const std::uint8_t *data() const { return data_; }
    constexpr std::size_t size() const { return size_; }
    constexpr ByteSpan bytes() const { return ByteSpan(data_, size_); }

    /* A range over a view walks over the items of an array or the values of an object's members, in
     * the order in which they are stored, each as a Node: a scalar has none. `members()` are the
     * members of an object with their keys, which ascend by their bytes:
     *
     *     for (Node item : view) ..
     *     for (auto [key, value] : view.members()) ..
     *
     * A walk takes time in proportion to the number of children. Where bytes are not a document, a
     * node with the status of that comes in place of the child that cannot be read, and the walk
     * ends; and the one member of what is no object has the status OTHER_KIND. */
    WalkIterator<Node> begin() const;
    WalkIterator<Node> end() const;
    Members members() const;
    /* The keys of an object, in the order of the members. */
    Result<std::vector<std::string_view>> keys() const;

    /* The value of a key, an item by its index, and what is at the end of a path, in place. The
     * status of the node is NONE if there is none. */
    Node operator[](std::string_view name) const;
    Node operator[](std::size_t index) const;
    Node find_at(std::string_view path, std::size_t depth = usual_depth) const;
    /* The array of all values that a path of SQL/JSON gives, as `$.lines[*] ? (@.price > 2)`, and
     * whether it gives one. `matches` is what a test says, as `$.total > 100`: NONE if that is
     * unknown. `variables` is an object, or no bytes; a silent call passes over the errors that
     * give a path up. OTHER_KIND if the text is not a path, for the reason that `path_report` has
     * in words. A path takes up to KOHIBLAD_PATH_STACK bytes of stack. */
    Result<Document> query(std::string_view path, View variables = View(), bool silent = false,
                           std::size_t depth = usual_depth) const;
    Result<bool> path_exists(std::string_view path, View variables = View(), bool silent = false,
                             std::size_t depth = usual_depth) const {
        return truth(kohiblad_path_exists(data_, size_, bytes_of(path), path.size(),
                                          variables.data_, variables.size_, silent, depth));
    }
    Result<bool> matches(std::string_view path, View variables = View(), bool silent = false,
                         std::size_t depth = usual_depth) const {
        return truth(kohiblad_path_match(data_, size_, bytes_of(path), path.size(), variables.data_,
                                         variables.size_, silent, depth));
    }
    /* The values that an older path text selects, in place: `$.lines[*].price`, or
     * `$.lines[*]?(@.price > 2)`; `[#-1]` is the last item there. OTHER_KIND if the text is not
     * such a path. */
    Result<std::vector<Node>> select(std::string_view path, std::size_t depth = usual_depth) const;
    /* Whether it is an object with this key, or an array with this text among its items. */
    Result<bool> exists(std::string_view name, std::size_t depth = usual_depth) const {
        return truth(kohiblad_exists(data_, size_, bytes_of(name), name.size(), depth));
    }

    bool is_document(std::size_t depth = usual_depth) const {
        return kohiblad_check(data_, size_, depth);
    }
    Result<Kind> kind() const {
        const kohiblad_value_kind it = kohiblad_kind(data_, size_);
        if (it.status != KOHIBLAD_OK) return Status(it.status);
        return static_cast<Kind>(it.kind);
    }
    /* The number of an array's items or an object's members, and else 0. */
    std::size_t count() const {
        return static_cast<std::size_t>(kohiblad_kind(data_, size_).count);
    }

    /* What a scalar holds. A string is looked at where it is. */
    Result<std::int64_t> int64() const {
        const kohiblad_integer it = kohiblad_as_int64(data_, size_);
        if (it.status != KOHIBLAD_OK) return Status(it.status);
        return it.value;
    }
    Result<kohiblad_decimal> decimal() const {
        const kohiblad_decimal it = kohiblad_as_decimal(data_, size_);
        if (it.status != KOHIBLAD_OK) return Status(it.status);
        return it;
    }
#ifdef __SIZEOF_INT128__
    /* A number times ten to the power of `scale`, exactly: of 1.5 with scale 2 it is 150.
     * PAST_RANGE: it has more digits after its point, or is past 128 bits. */
    Result<kohiblad_int128_t> unscaled(std::uint32_t scale) const {
        const kohiblad_unscaled it
            = kohiblad_decimal_unscaled(kohiblad_as_decimal(data_, size_), scale);
        if (it.status != KOHIBLAD_OK) return Status(it.status);
        return it.value;
    }
#endif
    /* The double nearest to a number, and the greatest error that it may have, 0 if it is exact. */
    Result<kohiblad_double> nearest_double() const {
        const kohiblad_double it = kohiblad_decimal_double(kohiblad_as_decimal(data_, size_));
        if (it.status != KOHIBLAD_OK) return Status(it.status);
        return it;
    }
    Result<bool> boolean() const { return truth(kohiblad_as_boolean(data_, size_)); }
    Result<std::string_view> string() const {
        const kohiblad_place it = kohiblad_as_string(data_, size_);
        if (it.status != KOHIBLAD_OK) return Status(it.status);
        return std::string_view(reinterpret_cast<const char *>(data_) + it.offset,
                                static_cast<std::size_t>(it.length));
    }

    /* The JSON text, compact or on lines. */
    Result<std::string> text(std::size_t depth = usual_depth) const {
        return written<std::string>(2 * size_ + 16, [&](auto *out, auto room, auto *length) {
            return kohiblad_print(data_, size_, depth, out, room, length);
        });
    }
    Result<std::string> pretty(std::size_t depth = usual_depth) const {
        return written<std::string>(0, [&](auto *out, auto room, auto *length) {
            return kohiblad_pretty(data_, size_, depth, out, room, length);
        });
    }
    /* A key that sorts by its bytes as the document does. */
    Result<Bytes> key(std::size_t depth = usual_depth) const {
        return written<Bytes>(2 * size_ + 16, [&](auto *out, auto room, auto *length) {
            return kohiblad_key(data_, size_, depth, out, room, length);
        });
    }
    Result<bool> contains(View other, std::size_t steps = SIZE_MAX,
                          std::size_t depth = usual_depth) const {
        return truth(kohiblad_contains(data_, size_, other.data_, other.size_, depth, steps));
    }

    /* The same as documents of their own. */
    Result<Document> get(std::string_view name) const;
    Result<Document> item(std::size_t index) const;
    Result<Document> at(std::string_view path, std::size_t depth = usual_depth) const;

    /* The document after a change at the end of a path, which is `$.a[0]`, `/a/0` or `{a,0}`. */
    Result<Document> put(std::string_view path, View value,
                         std::size_t depth = usual_depth) const;
    Result<Document> create(std::string_view path, View value,
                            std::size_t depth = usual_depth) const;
    Result<Document> insert(std::string_view path, View value,
                            std::size_t depth = usual_depth) const;
    Result<Document> remove(std::string_view path, std::size_t depth = usual_depth) const;
    Result<Document> merge(View patch, std::size_t depth = usual_depth) const;
    /* Two documents put together: of objects the members of both, where those of the other come in
     * place of members with the same key, and of arrays the items of both. */
    Result<Document> concat(View other, std::size_t depth = usual_depth) const;

  private:
    static Result<bool> truth(kohiblad_truth it) {
        if (it.status != KOHIBLAD_OK) return Status(it.status);
        return it.value != 0;
    }
    Result<Bytes> path_in(std::string_view path, std::size_t depth) const {
        return written<Bytes>(2 * path.size() + 64, [&](auto *out, auto room, auto *length) {
            return kohiblad_path_in(data_, size_, bytes_of(path), path.size(), depth, out, room,
                                    length);
        });
    }
    Result<Document> edited(std::string_view path, std::uint32_t edit, View value,
                            std::size_t depth) const;

    const std::uint8_t *data_;
    std::size_t size_;
};

/* A value in place: the entry of a document and its payload, which are elsewhere; or the status of
 * a refusal, which each call then returns. */
class Node {
  public:
    Node(Status refusal) : status_(refusal) {}
    /* The value at a place of some bytes, as the functions for C return it. */
    Node(View bytes, const kohiblad_place &place) : status_(place.status), type_(place.type) {
        if (status_ == Status()) {
            payload_ = View(bytes.data() + place.offset, static_cast<std::size_t>(place.length));
        }
    }
    explicit operator bool() const { return status_ == Status(); }
    Status status() const { return status_; }
    /* The type of the entry, of enum kohiblad_type, and its payload. */
    std::uint32_t type() const { return type_; }
    ByteSpan payload() const { return payload_.bytes(); }

    Result<Kind> kind() const {
        if (!*this) return status_;
        switch (type_) {
        case KOHIBLAD_TYPE_NULL: return Kind::null;
        case KOHIBLAD_TYPE_STRING: return Kind::string;
        case KOHIBLAD_TYPE_NUMBER: return Kind::number;
        case KOHIBLAD_TYPE_FALSE:
        case KOHIBLAD_TYPE_TRUE: return Kind::boolean;
        case KOHIBLAD_TYPE_EXTENSION: return Kind::extension;
        default: return payload_.kind();
        }
    }
    /* The number of an array's items or an object's members, and else 0. */
    std::size_t count() const { return is_container() ? payload_.count() : 0; }

    /* What a scalar holds. A string is looked at where it is, as it is stored. */
    Result<std::int64_t> int64() const { return of_number<std::int64_t>(&View::int64); }
    Result<kohiblad_decimal> decimal() const { return of_number<kohiblad_decimal>(&View::decimal); }
#ifdef __SIZEOF_INT128__
    Result<kohiblad_int128_t> unscaled(std::uint32_t scale) const {
        return of_number<kohiblad_int128_t>(&View::unscaled, scale);
    }
#endif
    Result<kohiblad_double> nearest_double() const {
        return of_number<kohiblad_double>(&View::nearest_double);
    }
    Result<bool> boolean() const {
        if (!*this) return status_;
        if (type_ == KOHIBLAD_TYPE_TRUE) return true;
        if (type_ == KOHIBLAD_TYPE_FALSE) return false;
        return Status(KOHIBLAD_OTHER_KIND);
    }
    Result<std::string_view> string() const {
        if (!*this) return status_;
        if (type_ != KOHIBLAD_TYPE_STRING) return Status(KOHIBLAD_OTHER_KIND);
        return std::string_view(reinterpret_cast<const char *>(payload_.data()), payload_.size());
    }

    /* The JSON text, compact or on lines. INVALID_JSONB: it is no value within the depth. */
    Result<std::string> text(std::size_t depth = usual_depth) const {
        return printed(2 * payload_.size() + 16, kohiblad_print_at, depth);
    }
    Result<std::string> pretty(std::size_t depth = usual_depth) const {
        return printed(0, kohiblad_pretty_at, depth);
    }
    /* The value as a document of its own. */
    Result<Document> document() const;

    /* Children, as a view has them. A refusal has none, so that a walk over all that is below a
     * value ends. */
    WalkIterator<Node> begin() const;
    WalkIterator<Node> end() const;
    Members members() const;
    Node operator[](std::string_view name) const {
        return is_container() ? payload_[name] : Node(refusal(KOHIBLAD_NONE));
    }
    Node operator[](std::size_t index) const {
        return is_container() ? payload_[index] : Node(refusal(KOHIBLAD_NONE));
    }

  private:
    bool is_container() const { return status_ == Status() && type_ == KOHIBLAD_TYPE_CONTAINER; }
    Status refusal(Status other) const { return *this ? other : status_; }
    /* A call of the document of a number, which has 26 bytes at most. */
    template <typename T, typename Call, typename... Arguments>
    Result<T> of_number(Call call, Arguments... arguments) const {
        std::uint8_t out[64];
        std::size_t length;
        if (!*this) return status_;
        if (type_ != KOHIBLAD_TYPE_NUMBER) return Status(KOHIBLAD_OTHER_KIND);
        if (kohiblad_copy(type_, payload_.data(), payload_.size(), out, sizeof out, &length)
            != KOHIBLAD_OK) {
            return Status(KOHIBLAD_INVALID_JSONB);
        }
        return (View(out, length).*call)(arguments...);
    }
    template <typename Call>
    Result<std::string> printed(std::size_t guess, Call call, std::size_t depth) const {
        if (!*this) return status_;
        return written<std::string>(guess, [&](auto *out, auto room, auto *length) {
            return call(type_, payload_.data(), payload_.size(), depth, out, room, length);
        });
    }

    Status status_;
    std::uint32_t type_ = KOHIBLAD_TYPE_NULL;
    View payload_;
};

/* A member of an object. */
struct Member {
    std::string_view key;
    Node value;
};

/* The state of a walk over children. Its element is a Node or a Member. */
template <typename Element> class WalkIterator {
  public:
    using value_type = Element;
    using difference_type = std::ptrdiff_t;
    using pointer = void;
    using reference = Element;
    using iterator_category = std::input_iterator_tag;
    using iterator_concept = std::forward_iterator_tag;

    /* The end of each walk. */
    WalkIterator() = default;
    /* The one element of a walk that is refused. */
    explicit WalkIterator(Status refusal) { set_refusal(refusal); }
    /* The first child of a document, or the end. */
    explicit WalkIterator(View bytes) : bytes_(bytes) {
        const Status status = kohiblad_begin(bytes_.data(), bytes_.size(), &cursor_);
        if (status == KOHIBLAD_OK) {
            step();
        } else if (status != KOHIBLAD_NONE) {
            set_refusal(status);
        }
    }

    Element operator*() const {
        if constexpr (std::is_same_v<Element, Member>) {
            return Member{key(), value_};
        } else {
            return value_;
        }
    }
    /* The key of a member; that of an item is empty. */
    std::string_view key() const { return key_; }
    Node value() const { return value_; }

    WalkIterator &operator++() {
        if (value_) {
            step();
        } else {
            is_at_end_ = true;
        }
        return *this;
    }
    WalkIterator operator++(int) {
        WalkIterator before = *this;
        ++*this;
        return before;
    }
    friend bool operator==(const WalkIterator &left, const WalkIterator &right) {
        if (left.is_at_end_ || right.is_at_end_) return left.is_at_end_ == right.is_at_end_;
        return left.bytes_.data() == right.bytes_.data()
            && left.cursor_.index == right.cursor_.index
            && left.value_.status() == right.value_.status();
    }
    friend bool operator!=(const WalkIterator &left, const WalkIterator &right) {
        return !(left == right);
    }

  private:
    void step() {
        kohiblad_place key, value;
        const Status status
            = kohiblad_next(bytes_.data(), bytes_.size(), &cursor_, &key, &value);
        is_at_end_ = status == KOHIBLAD_NONE;
        if (status == KOHIBLAD_OK) {
            value_ = Node(bytes_, value);
            key_ = key.status == KOHIBLAD_OK
                ? std::string_view(reinterpret_cast<const char *>(bytes_.data()) + key.offset,
                                   static_cast<std::size_t>(key.length))
                : std::string_view();
        } else if (!is_at_end_) {
            set_refusal(status);
        }
    }
    void set_refusal(Status refusal) {
        key_ = std::string_view();
        value_ = Node(refusal);
        is_at_end_ = false;
    }

    View bytes_;
    kohiblad_cursor cursor_ = {0, 0, 0};
    std::string_view key_;
    Node value_ = Node(Status(KOHIBLAD_NONE));
    bool is_at_end_ = true;
};

/* The members of an object, to walk over. */
class Members {
  public:
    explicit Members(View bytes) : bytes_(bytes) {
        const Result<Kind> kind = bytes.kind();
        refusal_ = kind && *kind != Kind::object ? Status(KOHIBLAD_OTHER_KIND) : kind.status();
    }
    /* The one member of what is refused; none if the status is NONE. */
    explicit Members(Status refusal) : refusal_(refusal) {}
    WalkIterator<Member> begin() const {
        if (refusal_ == KOHIBLAD_NONE) return {};
        return refusal_ == Status() ? WalkIterator<Member>(bytes_) : WalkIterator<Member>(refusal_);
    }
    WalkIterator<Member> end() const { return {}; }

  private:
    View bytes_;
    Status refusal_;
};

/* A document with bytes of its own. */
class Document {
  public:
    /* The document of null, a truth value, a number, a text, a document or a node; of `{1, "a"}` an
     * array, and of `{{"id", 7}, {"who", "Ada"}}` an object, whose keys differ. Documents have no
     * floating point: a double becomes the decimal of the fewest digits that is read as this
     * double, so that 0.1 is 0.1. PAST_RANGE: it is infinite or no number, or has more than 128
     * bits or 255 digits after its point. */
    static Result<Document> of(const Value &value);
    static Result<Document> of(std::initializer_list<Value> items);
    static Result<Document>
    of(std::initializer_list<std::pair<std::string_view, Value>> members);
    /* The array of a range of values, and the object of a range of pairs of keys and values, as a
     * std::map has them. */
    template <typename Range> static Result<Document> array_of(const Range &items);
    template <typename Range> static Result<Document> object_of(const Range &members);
    static Result<Document> parse(std::string_view text, std::size_t depth = usual_depth) {
        return made(2 * text.size() + 16, [&](auto *out, auto room, auto *length) {
            return kohiblad_parse(bytes_of(text), text.size(), depth, KOHIBLAD_EXPONENTS_ALLOWED,
                                  out, room, length);
        });
    }
    /* The document of stored bytes, which are checked. */
    static Result<Document> checked(Bytes bytes, std::size_t depth = usual_depth) {
        if (!View(bytes).is_document(depth)) return Status(KOHIBLAD_INVALID_JSONB);
        return Document(std::move(bytes));
    }
    /* The document that a call writes. */
    template <typename Call> static Result<Document> made(std::size_t guess, Call call) {
        Result<Bytes> bytes = written<Bytes>(guess, call);
        if (!bytes) return bytes.status();
        return Document(*std::move(bytes));
    }
    View view() const { return View(bytes_); }
    operator View() const { return View(bytes_); }
    const Bytes &bytes() const { return bytes_; }
    /* Its children, as a view has them. */
    WalkIterator<Node> begin() const;
    WalkIterator<Node> end() const;

  private:
    explicit Document(Bytes bytes) : bytes_(std::move(bytes)) {}
    Bytes bytes_;
};

/* Where a text is not JSON, and why: also in words, as `expected ':' at byte 5, found '1'`. */
inline std::string fault_words(std::string_view text, std::size_t depth = usual_depth) {
    char words[KOHIBLAD_WORDS_ROOM];
    kohiblad_fault_words(bytes_of(text), text.size(), depth, KOHIBLAD_EXPONENTS_ALLOWED, words,
                         sizeof words);
    return words;
}
/* Why a text is not a path of SQL/JSON, in words of two lines with a caret under the place. The
 * status is NONE if it is one. */
inline Result<std::string> path_report(std::string_view path) {
    return written<std::string>(512, [&](auto *out, auto room, auto *length) {
        return kohiblad_path_report(bytes_of(path), path.size(), out, room, length);
    });
}
inline kohiblad_fault fault_of(std::string_view text, std::size_t depth = usual_depth) {
    return kohiblad_text_fault(bytes_of(text), text.size(), depth, KOHIBLAD_EXPONENTS_ALLOWED);
}

/* The order of two documents: -1, 0 or 1. */
inline int compare(View left, View right, std::size_t depth = usual_depth) {
    return kohiblad_compare(left.data(), left.size(), right.data(), right.size(), depth);
}

/* Documents compare by value, so 5 and 5.0 are equal; views and documents may be mixed. */
inline bool operator==(View left, View right) { return compare(left, right) == 0; }
#if defined(__cpp_lib_three_way_comparison)
inline std::weak_ordering operator<=>(View left, View right) { return compare(left, right) <=> 0; }
#else
inline bool operator!=(View left, View right) { return compare(left, right) != 0; }
inline bool operator<(View left, View right) { return compare(left, right) < 0; }
inline bool operator>(View left, View right) { return compare(left, right) > 0; }
inline bool operator<=(View left, View right) { return compare(left, right) <= 0; }
inline bool operator>=(View left, View right) { return compare(left, right) >= 0; }
#endif

/* Writes the compact text. The stream fails if there is none: of what is no document, or nests
 * deeper than 64 levels. */
inline std::ostream &write_text(std::ostream &out, const Result<std::string> &text) {
    if (!text) {
        out.setstate(std::ios_base::failbit);
        return out;
    }
    return out << *text;
}
inline std::ostream &operator<<(std::ostream &out, View view) {
    return write_text(out, view.is_document() ? view.text() : Status(KOHIBLAD_INVALID_JSONB));
}
inline std::ostream &operator<<(std::ostream &out, const Node &node) {
    return write_text(out, node.text());
}

inline WalkIterator<Node> View::begin() const { return WalkIterator<Node>(*this); }
inline WalkIterator<Node> View::end() const { return {}; }
inline Members View::members() const { return Members(*this); }
inline WalkIterator<Node> Document::begin() const { return view().begin(); }
inline WalkIterator<Node> Document::end() const { return {}; }
inline WalkIterator<Node> Node::begin() const {
    return is_container() ? payload_.begin() : WalkIterator<Node>();
}
inline WalkIterator<Node> Node::end() const { return {}; }
inline Members Node::members() const {
    if (is_container()) return payload_.members();
    return *this ? Members(Status(KOHIBLAD_OTHER_KIND)) : Members(Status(KOHIBLAD_NONE));
}
inline Result<Document> Node::document() const {
    if (!*this) return status_;
    return Document::made(payload_.size() + 8, [&](auto *out, auto room, auto *length) {
        return kohiblad_copy(type_, payload_.data(), payload_.size(), out, room, length);
    });
}

inline Result<std::vector<std::string_view>> View::keys() const {
    std::vector<std::string_view> keys;
    for (const Member member : members()) {
        if (!member.value) return member.value.status();
        keys.push_back(member.key);
    }
    return keys;
}
inline Node View::operator[](std::string_view name) const {
    return Node(*this, kohiblad_find_key(data_, size_, bytes_of(name), name.size()));
}
inline Node View::operator[](std::size_t index) const {
    const Result<Kind> it = kind();
    if (!it) return it.status();
    /* The parts of an object are its keys, and then its values. */
    if (*it != Kind::array) return Status(KOHIBLAD_NONE);
    return Node(*this, kohiblad_find_index(data_, size_, index));
}
inline Node View::find_at(std::string_view path, std::size_t depth) const {
    const Result<Bytes> steps = path_in(path, depth);
    if (!steps) return steps.status();
    return Node(*this, kohiblad_get_path(data_, size_, steps->data(), steps->size(), depth));
}
inline Result<Document> View::query(std::string_view path, View variables, bool silent,
                                    std::size_t depth) const {
    return Document::made(size_ + 64, [&](auto *out, auto room, auto *length) {
        return kohiblad_path_query(data_, size_, bytes_of(path), path.size(), variables.data_,
                                   variables.size_, silent, depth, out, room, length);
    });
}
inline Result<std::vector<Node>> View::select(std::string_view path, std::size_t depth) const {
    std::vector<kohiblad_place> places;
    std::size_t count = 16;
    Status status = KOHIBLAD_NO_ROOM;
    while (status == KOHIBLAD_NO_ROOM) {
        places.resize(count);
        status = kohiblad_select(data_, size_, bytes_of(path), path.size(), depth, places.data(),
                                 places.size(), &count);
    }
    if (status != KOHIBLAD_OK) return status;
    places.resize(count);
    std::vector<Node> nodes;
    nodes.reserve(count);
    for (const kohiblad_place &place : places) nodes.emplace_back(*this, place);
    return nodes;
}

inline Result<Document> View::get(std::string_view name) const {
    return Document::made(64, [&](auto *out, auto room, auto *length) {
        return kohiblad_get_key(data_, size_, bytes_of(name), name.size(), out, room, length);
    });
}
inline Result<Document> View::item(std::size_t index) const {
    return Document::made(64, [&](auto *out, auto room, auto *length) {
        return kohiblad_get_index(data_, size_, index, out, room, length);
    });
}
inline Result<Document> View::at(std::string_view path, std::size_t depth) const {
    return find_at(path, depth).document();
}
inline Result<Document> View::edited(std::string_view path, std::uint32_t edit, View value,
                                     std::size_t depth) const {
    const Result<Bytes> steps = path_in(path, depth);
    if (!steps) return steps.status();
    const std::size_t most = kohiblad_edit_room(size_, steps->size(), value.size());
    return Document::made(most, [&](auto *out, auto room, auto *length) {
        return kohiblad_edit(data_, size_, steps->data(), steps->size(), edit, value.data(),
                             value.size(), depth, out, room, length);
    });
}
inline Result<Document> View::put(std::string_view path, View value, std::size_t depth) const {
    return edited(path, KOHIBLAD_PUT, value, depth);
}
inline Result<Document> View::create(std::string_view path, View value, std::size_t depth) const {
    return edited(path, KOHIBLAD_CREATE, value, depth);
}
inline Result<Document> View::insert(std::string_view path, View value, std::size_t depth) const {
    return edited(path, KOHIBLAD_INSERT, value, depth);
}
inline Result<Document> View::remove(std::string_view path, std::size_t depth) const {
    return edited(path, KOHIBLAD_REMOVE, View(), depth);
}
inline Result<Document> View::merge(View patch, std::size_t depth) const {
    return Document::made(size_ + patch.size() + 64, [&](auto *out, auto room, auto *length) {
        return kohiblad_merge_patch(data_, size_, patch.data(), patch.size(), depth, out, room,
                                    length);
    });
}

inline Result<Document> View::concat(View other, std::size_t depth) const {
    const std::size_t most = kohiblad_concat_room(size_, other.size());
    return Document::made(most, [&](auto *out, auto room, auto *length) {
        return kohiblad_concat(data_, size_, other.data(), other.size(), depth, out, room, length);
    });
}

#ifdef __SIZEOF_INT128__
/* The decimal of an unscaled value: 150 with scale 2 is 1.50. */
inline kohiblad_decimal decimal_of(kohiblad_int128_t unscaled, std::uint32_t scale) {
    const kohiblad_int128 halves = kohiblad_int128_of(unscaled);
    return {KOHIBLAD_OK, scale, halves.high, halves.low};
}
#endif

template <typename T, typename... Others>
inline constexpr bool is_one_of = (std::is_same_v<T, Others> || ...);

/* Numbers that a document is made of. A character is none, since its number would be its code. */
template <typename T>
inline constexpr bool is_whole
    = is_one_of<T, signed char, unsigned char, short, unsigned short, int, unsigned, long,
                unsigned long, long long, unsigned long long>;
template <typename T> inline constexpr bool is_real = is_one_of<T, float, double>;

/* The digits of a number that is finite: the fewest that are read as this number, and then an
 * exponent, as 15e-1. */
template <typename T> std::string fewest_digits(T number) {
    char digits[40];
    const auto real = static_cast<double>(number);
    for (int count = std::numeric_limits<T>::digits10;; count++) {
        std::snprintf(digits, sizeof digits, "%.*e", count - 1, real);
        const double again = std::strtod(digits, nullptr);
        const bool is_same = !(static_cast<T>(again) < number) && !(number < static_cast<T>(again));
        if (is_same || count == std::numeric_limits<T>::max_digits10) break;
    }
    /* The point is that of the locale. */
    const char *exponent = std::strchr(digits, 'e');
    std::string text(number < 0 ? "-" : ""), mantissa;
    for (const char *at = digits; at < exponent; at++)
        if (*at >= '0' && *at <= '9') mantissa += *at;
    const auto last = mantissa.find_last_not_of('0');
    if (last == std::string::npos) return "0";
    mantissa.resize(last + 1);
    const long power = std::atol(exponent + 1) - static_cast<long>(last);
    return text + mantissa + 'e' + std::to_string(power);
}

/* What a document is made of: a value that is one, or the status of a refusal. */
class Value {
  public:
    Value(std::nullptr_t)
        : document_(Document::made(8, [](auto *out, auto room, auto *length) {
              return kohiblad_of_null(out, room, length);
          })) {}
    template <typename T, std::enable_if_t<std::is_same_v<T, bool>, int> = 0>
    Value(T truth)
        : document_(Document::made(8, [&](auto *out, auto room, auto *length) {
              return kohiblad_of_boolean(truth, out, room, length);
          })) {}
    template <typename T, std::enable_if_t<is_whole<T>, int> = 0>
    Value(T number)
        : Value(kohiblad_decimal{KOHIBLAD_OK, 0, is_negative(number) ? -1 : 0,
                                 static_cast<std::uint64_t>(number)}) {}
    template <typename T, std::enable_if_t<is_real<T>, int> = 0>
    Value(T number) : document_(of_real(number)) {}
    Value(const kohiblad_decimal &number)
        : document_(number.status != KOHIBLAD_OK
              ? Result<Document>(Status(number.status))
              : Document::made(32, [&](auto *out, auto room, auto *length) {
                    return kohiblad_of_decimal(number.high, number.low, number.scale, out, room,
                                               length);
                })) {}
    template <typename T, std::enable_if_t<std::is_convertible_v<const T &, std::string_view>
                                               && !std::is_same_v<T, std::nullptr_t>, int> = 0>
    Value(const T &text) : document_(of_text(text)) {}
    /* A value that is not there is null. */
    template <typename T>
    Value(const std::optional<T> &value) : Value(value ? Value(*value) : Value(nullptr)) {}
    Value(Document document) : document_(std::move(document)) {}
    Value(Result<Document> document) : document_(std::move(document)) {}
    Value(const Node &node) : document_(node.document()) {}
    /* Bytes that are checked. */
    Value(View bytes) : document_(Document::checked(Bytes(bytes.bytes().begin(),
                                                          bytes.bytes().end()))) {}

    const Result<Document> &document() const { return document_; }

  private:
    static Result<Document> of_text(std::string_view text) {
        return Document::made(text.size() + 8, [&](auto *out, auto room, auto *length) {
            return kohiblad_of_string(bytes_of(text), text.size(), out, room, length);
        });
    }
    template <typename T> static Result<Document> of_real(T number) {
        if (!std::isfinite(number)) return Status(KOHIBLAD_PAST_RANGE);
        Result<Document> document = Document::parse(fewest_digits(number));
        const bool is_kept = document || document.status() == KOHIBLAD_OUT_OF_MEMORY;
        return is_kept ? document : Status(KOHIBLAD_PAST_RANGE);
    }
    template <typename T> static bool is_negative(T number) {
        return std::is_signed_v<T> && static_cast<std::int64_t>(number) < 0;
    }

    Result<Document> document_;
};

/* A member of many rows: of each row its value, or what is there in place of one. */
template <typename T> struct Taken {
    std::vector<T> values;             /* 0 where a row has no value */
    std::vector<std::uint8_t> states;  /* of enum kohiblad_row_state */
    std::uint64_t unfit = 0;           /* how many rows have another value, or are no document */
    std::uint64_t first_unfit = 0;     /* the first of these, or the number of rows */

    std::size_t size() const { return values.size(); }
    /* The value of a row, if its state is KOHIBLAD_ROW_VALUE. */
    std::optional<T> operator[](std::size_t row) const {
        if (states[row] != KOHIBLAD_ROW_VALUE) return std::nullopt;
        return values[row];
    }
};
/* The same of texts, which follow one another. */
struct TakenTexts {
    std::string texts;
    std::vector<std::size_t> offsets;
    std::vector<std::uint8_t> states;
    std::uint64_t unfit = 0;
    std::uint64_t first_unfit = 0;

    std::size_t size() const { return states.size(); }
    /* The text of a row, if its state is KOHIBLAD_ROW_VALUE: it is looked at where it is. */
    std::optional<std::string_view> operator[](std::size_t row) const {
        if (states[row] != KOHIBLAD_ROW_VALUE) return std::nullopt;
        return std::string_view(texts).substr(offsets[row], offsets[row + 1] - offsets[row]);
    }
};

/* Many rows one after another: bytes, and the offsets at which rows begin and the last one ends. */
class Rows {
  public:
    Rows() = default;
    /* The rows of a range of documents or views. */
    template <typename Range> explicit Rows(const Range &rows) {
        for (const View row : rows) add(row);
    }
    Rows &add(View row) {
        bytes_.insert(bytes_.end(), row.bytes().begin(), row.bytes().end());
        offsets_.push_back(bytes_.size());
        return *this;
    }
    std::size_t size() const { return offsets_.size() - 1; }
    View operator[](std::size_t row) const {
        return View(bytes_.data() + offsets_[row], offsets_[row + 1] - offsets_[row]);
    }
    ByteSpan bytes() const { return View(bytes_).bytes(); }
    const std::vector<std::size_t> &offsets() const { return offsets_; }

    /* The numbers of the rows in the order of their values. */
    Result<std::vector<std::size_t>> sorted_order(std::size_t depth = usual_depth) const {
        std::vector<std::size_t> order(size());
        const Status status
            = kohiblad_sort(bytes_.data(), bytes_.size(), offsets_.data(), offsets_.size(), depth,
                            order.data(), order.size());
        if (status != KOHIBLAD_OK) return status;
        return order;
    }

    /* The value at the end of a path such as `$.a[0]` in each row, of one type. OTHER_KIND if the
     * text is no such path. A number is taken by its value, so that 2.0 is an int64 and 1.5 has
     * scale 2, or with KOHIBLAD_EXACT only if it is stored so. */
    Result<Taken<std::int64_t>> take_int64(std::string_view path,
                                           kohiblad_fit fit = KOHIBLAD_BY_VALUE,
                                           std::size_t depth = usual_depth) const {
        return take<std::int64_t>(path, depth, kohiblad_take_int64,
                                  static_cast<std::uint32_t>(fit));
    }
    Result<Taken<std::uint8_t>> take_boolean(std::string_view path,
                                             std::size_t depth = usual_depth) const {
        return take<std::uint8_t>(path, depth, kohiblad_take_boolean);
    }
    Result<Taken<std::int32_t>> take_date(std::string_view path,
                                          std::size_t depth = usual_depth) const {
        return take<std::int32_t>(path, depth, kohiblad_take_date);
    }
    Result<Taken<std::int64_t>> take_timestamp(std::string_view path,
                                               std::size_t depth = usual_depth) const {
        return take<std::int64_t>(path, depth, kohiblad_take_timestamp);
    }
#ifdef __SIZEOF_INT128__
    /* Unscaled values at a scale: 1.5 with scale 2 is 150. */
    Result<Taken<kohiblad_int128_t>> take_decimal(std::string_view path, std::uint32_t scale,
                                                  kohiblad_fit fit = KOHIBLAD_BY_VALUE,
                                                  std::size_t depth = usual_depth) const {
        auto halves = take<kohiblad_int128>(path, depth, kohiblad_take_decimal,
                                            static_cast<std::uint32_t>(fit), scale);
        if (!halves) return halves.status();
        Taken<kohiblad_int128_t> out{{}, halves->states, halves->unfit, halves->first_unfit};
        out.values.reserve(halves->size());
        for (const kohiblad_int128 &it : halves->values)
            out.values.push_back(kohiblad_int128_value(it));
        return out;
    }
#endif
    Result<TakenTexts> take_text(std::string_view path, std::size_t depth = usual_depth) const {
        const Result<Bytes> steps = steps_of(path);
        if (!steps) return steps.status();
        TakenTexts out;
        out.offsets.resize(size() + 1);
        out.states.resize(size());
        kohiblad_taken it;
        std::size_t length = 16 * size();
        do {
            out.texts.resize(length);
            it = kohiblad_take_text(bytes_.data(), bytes_.size(), offsets_.data(), offsets_.size(),
                                    steps->data(), steps->size(), depth,
                                    reinterpret_cast<std::uint8_t *>(out.texts.data()),
                                    out.texts.size(), &length, out.offsets.data(),
                                    out.offsets.size(), out.states.data(), out.states.size());
        } while (it.status == KOHIBLAD_NO_ROOM);
        if (it.status != KOHIBLAD_OK) return Status(it.status);
        out.texts.resize(length);
        out.unfit = it.unfit;
        out.first_unfit = it.first_unfit;
        return out;
    }

    /* The document of the steps of a path such as `$.a[0]`. */
    static Result<Bytes> steps_of(std::string_view path) {
        return written<Bytes>(2 * path.size() + 64, [&](auto *out, auto room, auto *length) {
            return kohiblad_path_of_text(bytes_of(path), path.size(), out, room, length);
        });
    }

  private:
    template <typename T, typename Call, typename... Arguments>
    Result<Taken<T>> take(std::string_view path, std::size_t depth, Call call,
                          Arguments... arguments) const {
        const Result<Bytes> steps = steps_of(path);
        if (!steps) return steps.status();
        Taken<T> out;
        out.values.resize(size());
        out.states.resize(size());
        const kohiblad_taken it
            = call(bytes_.data(), bytes_.size(), offsets_.data(), offsets_.size(), steps->data(),
                   steps->size(), depth, arguments..., out.values.data(), out.values.size(),
                   out.states.data(), out.states.size());
        if (it.status != KOHIBLAD_OK) return Status(it.status);
        out.unfit = it.unfit;
        out.first_unfit = it.first_unfit;
        return out;
    }

    Bytes bytes_;
    std::vector<std::size_t> offsets_ = {0};
};

/* A document of which slices are read, and the value in it that was led to: first the whole. */
template <typename Read> class Slices {
  public:
    Slices(std::size_t size, Read read) : read_(std::move(read)) { place_.length = size; }

    /* Leads on to the value of a key, or to an item; a negative index counts from the end. */
    Status lead(std::string_view name) {
        return find([&](View prefix, std::size_t size) {
            return kohiblad_find_key_in_prefix(prefix.data(), prefix.size(), size, bytes_of(name),
                                               name.size());
        });
    }
    Status lead(std::int64_t index) {
        return find([&](View prefix, std::size_t size) {
            const Result<Kind> kind = prefix.kind();
            kohiblad_place none = {};
            none.status = kind ? Status(KOHIBLAD_NONE).number() : kind.status().number();
            if (!kind) return none;
            const auto count = static_cast<std::int64_t>(prefix.count());
            const std::int64_t from_begin = index < 0 ? index + count : index;
            if (*kind != Kind::array || from_begin < 0) return none;
            return kohiblad_find_index_in_prefix(prefix.data(), prefix.size(), size,
                                                 static_cast<std::size_t>(from_begin));
        });
    }
    /* The value that was led to. */
    Result<Document> value(std::size_t depth = usual_depth) {
        const auto size = static_cast<std::size_t>(place_.length);
        const Status status = fetch(size);
        if (status != KOHIBLAD_OK) return status;
        Result<Bytes> document = written<Bytes>(size + 8, [&](auto *out, auto room, auto *length) {
            return kohiblad_copy(place_.type, bytes_.data(), size, out, room, length);
        });
        if (!document) return document.status();
        return Document::checked(*std::move(document), depth);
    }

  private:
    /* So many bytes are read at once, of which most documents have their keys in the first. */
    static constexpr std::size_t least_read = 4096;

    /* Reads what is not at hand of the first bytes of the value. */
    Status fetch(std::size_t size) {
        const std::size_t known = bytes_.size();
        if (known >= size) return KOHIBLAD_OK;
        bytes_.resize(size);
        const auto at = static_cast<std::size_t>(place_.offset) + known;
        return read_(at, bytes_.data() + known, size - known) ? KOHIBLAD_OK : KOHIBLAD_INVALID_EOF;
    }
    template <typename Find> Status find(Find find_in) {
        if (place_.type != KOHIBLAD_TYPE_CONTAINER) return KOHIBLAD_NONE;
        const auto size = static_cast<std::size_t>(place_.length);
        std::size_t needed = std::min(size, least_read);
        for (;;) {
            const Status status = fetch(needed);
            if (status != KOHIBLAD_OK) return status;
            const kohiblad_place found = find_in(View(bytes_.data(), needed), size);
            if (found.status == KOHIBLAD_OK) return enter(found);
            if (found.status != KOHIBLAD_INVALID_EOF || found.length == 0) return found.status;
            needed = static_cast<std::size_t>(found.length);
        }
    }
    /* Makes a child the value, and keeps those of its bytes that are at hand. */
    Status enter(const kohiblad_place &child) {
        const auto passed = static_cast<std::size_t>(child.offset);
        bytes_.erase(bytes_.begin(),
                     bytes_.begin() + static_cast<std::ptrdiff_t>(std::min(passed, bytes_.size())));
        place_.offset += child.offset;
        place_.length = child.length;
        place_.type = child.type;
        return KOHIBLAD_OK;
    }

    Read read_;
    kohiblad_place place_ = {KOHIBLAD_OK, KOHIBLAD_TYPE_CONTAINER, 0, 0};
    Bytes bytes_; /* the first bytes of the value */
};
/* The value at the end of a path such as `$.a[0]` in one document of `size` bytes, of which no more
 * is read than that takes: the entry words and keys of each array and object on the way, and the
 * value. `read(at, out, n)` stores the n bytes from `at` on, as of a file, and returns whether it
 * could:
 *
 *     auto read = [&](std::size_t at, std::uint8_t *out, std::size_t n) {
 *         return bool(file.seekg(at).read(reinterpret_cast<char *>(out), n));
 *     };
 *     auto tag = kohiblad::read_path(size, read, "$.tags[0]");
 *
 * NONE if the path leads nowhere, and OTHER_KIND if the text is no such path; INVALID_EOF if the
 * bytes could not be read, or the document is cut; INVALID_JSONB, what was read is of no document
 * within the depth: the value is checked, and of the rest what a look-up reads. */
template <typename Read>
Result<Document> read_path(std::size_t size, Read read, std::string_view path,
                           std::size_t depth = usual_depth) {
    const Result<Bytes> steps = Rows::steps_of(path);
    if (!steps) return steps.status();
    Slices<Read> slices(size, std::move(read));
    for (Node step : View(*steps)) {
        const Result<std::string_view> name = step.string();
        /* An index past 64 bits is past each array. */
        const std::int64_t index = step.int64().value_or(std::numeric_limits<std::int64_t>::max());
        const Status status = name ? slices.lead(*name) : slices.lead(index);
        if (status != KOHIBLAD_OK) return status;
    }
    return slices.value(depth);
}

/* Builds an array, item after item. The first refusal of an item is that of the array. */
class ArrayBuilder {
  public:
    ArrayBuilder &add(const Value &item) {
        const Result<Document> &document = item.document();
        if (document) {
            items_.add(*document);
        } else if (status_ == KOHIBLAD_OK) {
            status_ = document.status();
        }
        return *this;
    }
    std::size_t size() const { return items_.size(); }
    Result<Document> build(std::size_t depth = usual_depth) const {
        if (status_ != KOHIBLAD_OK) return status_;
        const ByteSpan bytes = items_.bytes();
        return Document::made(bytes.size() + 8, [&](auto *out, auto room, auto *length) {
            return kohiblad_build_array(bytes.data(), bytes.size(), items_.offsets().data(),
                                        items_.offsets().size(), depth, out, room, length);
        });
    }

  private:
    Rows items_;
    Status status_;
};

/* Builds an object, member after member, in any order. OBJECT_DUPLICATE_KEY: two have one key. The
 * first refusal of a value is that of the object. */
class ObjectBuilder {
  public:
    ObjectBuilder &add(std::string_view key, const Value &value) {
        const Result<Document> &document = value.document();
        if (document) {
            members_.add(View(bytes_of(key), key.size())).add(*document);
        } else if (status_ == KOHIBLAD_OK) {
            status_ = document.status();
        }
        return *this;
    }
    std::size_t size() const { return members_.size() / 2; }
    Result<Document> build(std::size_t depth = usual_depth) const {
        if (status_ != KOHIBLAD_OK) return status_;
        const ByteSpan bytes = members_.bytes();
        return Document::made(bytes.size() + 8, [&](auto *out, auto room, auto *length) {
            return kohiblad_build_object(bytes.data(), bytes.size(), members_.offsets().data(),
                                         members_.offsets().size(), depth, out, room, length);
        });
    }

  private:
    Rows members_;
    Status status_;
};

inline Result<Document> Document::of(const Value &value) { return value.document(); }
inline Result<Document> Document::of(std::initializer_list<Value> items) { return array_of(items); }
inline Result<Document>
Document::of(std::initializer_list<std::pair<std::string_view, Value>> members) {
    return object_of(members);
}
template <typename Range> Result<Document> Document::array_of(const Range &items) {
    ArrayBuilder builder;
    for (const auto &item : items) builder.add(item);
    return builder.build();
}
template <typename Range> Result<Document> Document::object_of(const Range &members) {
    ObjectBuilder builder;
    for (const auto &[key, value] : members) builder.add(key, value);
    return builder.build();
}

/* The comparable keys of the values at the ends of paths, one after another, as
 * kohiblad_member_key has those of members: where a path leads nowhere there is a byte 0, which is
 * below all keys. */
inline Result<Bytes> keys_at(View row, const std::vector<Bytes> &paths, std::size_t depth) {
    Bytes keys;
    for (const Bytes &path : paths) {
        const Node value(row, kohiblad_get_path(row.data(), row.size(), path.data(), path.size(),
                                                depth));
        if (value.status() == KOHIBLAD_NONE) {
            keys.push_back(0);
            continue;
        }
        const Result<Document> document = value.document();
        if (!document) return document.status();
        const Result<Bytes> key = document->view().key(depth);
        if (!key) return key.status();
        keys.insert(keys.end(), key->begin(), key->end());
    }
    return keys;
}

/* Sorts documents by the values at the ends of paths such as `$.town`, of equal ones by those of
 * the next path; rows without the value come first, and equal rows keep their order. The empty path
 * `$` is the whole document. Each row's comparable key is made once. If the status is not OK, the
 * rows are as they were: OTHER_KIND, a text is no such path; INVALID_JSONB, a row nests deeper. */
[[nodiscard]] inline Status sort_by(std::vector<Document> &rows,
                                    std::initializer_list<std::string_view> paths,
                                    std::size_t depth = usual_depth) {
    std::vector<Bytes> steps;
    for (const std::string_view path : paths) {
        Result<Bytes> it = Rows::steps_of(path);
        if (!it) return it.status();
        steps.push_back(*std::move(it));
    }
    std::vector<std::pair<Bytes, std::size_t>> keyed;
    keyed.reserve(rows.size());
    for (const Document &row : rows) {
        Result<Bytes> keys = keys_at(row, steps, depth);
        if (!keys) return keys.status();
        keyed.emplace_back(*std::move(keys), keyed.size());
    }
    /* By keys, and equal ones by their first places. */
    std::sort(keyed.begin(), keyed.end());
    std::vector<Document> sorted;
    sorted.reserve(rows.size());
    for (const auto &it : keyed) sorted.push_back(std::move(rows[it.second]));
    rows = std::move(sorted);
    return KOHIBLAD_OK;
}
[[nodiscard]] inline Status sort(std::vector<Document> &rows, std::size_t depth = usual_depth) {
    return sort_by(rows, {"$"}, depth);
}

}  // namespace kohiblad

#endif

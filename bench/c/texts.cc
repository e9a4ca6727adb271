// Times the library for C beside cJSON, jansson and simdjson: texts parsed, keys found, texts
// printed. run.sh builds and runs it. It prints tables, with for each library the median of the
// rounds and, in brackets, the lowest and the highest.
#include <cJSON.h>
#include <jansson.h>
#include <kohiblad.h>
#include <simdjson.h>

#include <algorithm>
#include <cstdint>
#include <cstdio>
#include <cstdlib>
#include <ctime>
#include <functional>
#include <memory>
#include <string>
#include <string_view>
#include <utility>
#include <vector>

namespace {

constexpr std::size_t depth = 64;
constexpr int rounds = 41;
constexpr double turn_seconds = 0.005;

// A call, repeated so many times.
using Repeated = std::function<void(std::size_t)>;

[[noreturn]] void fail(const char *what) {
    std::fprintf(stderr, "%s\n", what);
    std::exit(1);
}

const std::uint8_t *bytes_of(std::string_view text) {
    return reinterpret_cast<const std::uint8_t *>(text.data());
}

// The compiler may take nothing for known from one call to the next, nor drop a call.
template <typename Call>
Repeated repeated(Call call) {
    return [call](std::size_t times) mutable {
        for (std::size_t i = 0; i < times; i++) {
            auto answer = call();
            asm volatile("" : : "r"(&answer) : "memory");
        }
    };
}

// The processor's time of this thread, so that what else the machine does counts less.
double seconds_of(const Repeated &call, std::size_t times) {
    timespec start, end;
    clock_gettime(CLOCK_THREAD_CPUTIME_ID, &start);
    call(times);
    clock_gettime(CLOCK_THREAD_CPUTIME_ID, &end);
    return double(end.tv_sec - start.tv_sec) + 1e-9 * double(end.tv_nsec - start.tv_nsec);
}

// A time with three digits, or all of its whole ones, and commas between thousands.
std::string shown(double number) {
    char text[64];
    std::snprintf(text, sizeof text, "%.*f", number < 9.995 ? 2 : number < 99.95 ? 1 : 0, number);
    std::string digits = text;
    const std::size_t point = std::min(digits.find('.'), digits.size());
    for (std::size_t i = point; i > 3; i -= 3) digits.insert(i - 3, ",");
    return digits;
}

// A row of a table: what each library does, of which a call does `parts`, and a time is that of one
// part, in units of `unit` seconds.
struct Row {
    const char *table;
    const char *name;
    double unit;
    std::size_t parts;
    std::vector<Repeated> calls;
    std::vector<std::size_t> times = {};
    std::vector<std::vector<double>> taken = {};
};

// Times all rows in each round, in which the libraries take turns, so that a time in which the
// machine is busy weighs on all alike.
void measure(std::vector<Row> &rows) {
    for (Row &row : rows) {
        for (const Repeated &call : row.calls) {
            std::size_t enough = 1;
            while (seconds_of(call, enough) < turn_seconds) enough *= 2;
            row.times.push_back(enough);
        }
        row.taken.resize(row.calls.size());
    }
    for (int round = 0; round < rounds; round++) {
        for (Row &row : rows) {
            for (std::size_t i = 0; i < row.calls.size(); i++) {
                const double seconds = seconds_of(row.calls[i], row.times[i]);
                row.taken[i].push_back(seconds / double(row.times[i] * row.parts) / row.unit);
            }
        }
    }
}

void print(std::vector<Row> &rows) {
    std::string_view table;
    for (Row &row : rows) {
        if (table != row.table) {
            table = row.table;
            std::printf("\n| %s | Kohiblad | cJSON | jansson | simdjson |\n", row.table);
            std::printf("|---|---|---|---|---|\n");
        }
        std::printf("| %s |", row.name);
        for (std::vector<double> &numbers : row.taken) {
            std::sort(numbers.begin(), numbers.end());
            std::printf(" %s (%s to %s) |", shown(numbers[rounds / 2]).c_str(),
                        shown(numbers.front()).c_str(), shown(numbers.back()).c_str());
        }
        std::printf("\n");
    }
}

// What is timed

std::uint64_t random_number() {
    static std::uint64_t state = 1;
    state = state * 6364136223846793005 + 1442695040888963407;
    return state >> 33;
}

std::string words(std::size_t bytes) {
    static const char *const list[] = {"north", "river",         "stone",  "light", "caf\xc3\xa9",
                                       "said",  "\\\"quick\\\"", "autumn", "over",  "\\n"};
    std::string text;
    while (text.size() < bytes) {
        text += text.empty() ? "" : " ";
        text += list[random_number() % 10];
    }
    return text;
}

std::string decimal() {
    return std::to_string(random_number() % 100000) + "." + std::to_string(random_number() % 9 + 1);
}

std::string number(std::size_t i) {
    return i % 2 ? decimal() : std::to_string(random_number() % 1000000);
}

std::string string(std::size_t i) {
    return "\"" + words(i % 200) + "\"";
}

std::string record(std::size_t id) {
    return "{\"id\":" + std::to_string(id) + ",\"name\":\"" + words(12) + "\",\"city\":\""
           + words(6) + "\",\"price\":" + decimal()
           + ",\"count\":" + std::to_string(random_number() % 1000) + ",\"active\":"
           + (random_number() % 2 ? "true" : "false") + ",\"note\":null,\"tags\":[\"" + words(4)
           + "\",\"" + words(4) + "\"],\"zip\":\"" + std::to_string(random_number() % 90000 + 10000)
           + "\",\"year\":" + std::to_string(1950 + random_number() % 75) + "}";
}

// So many items, between commas.
template <typename Item>
std::string list_of(std::size_t count, Item item) {
    std::string text;
    for (std::size_t i = 0; i < count; i++) text += (i ? "," : "") + item(i);
    return text;
}

std::string tree(int levels) {
    if (levels == 0) return std::to_string(random_number() % 1000);
    return "{\"left\":" + tree(levels - 1) + ",\"right\":[" + tree(levels - 1) + ","
           + tree(levels - 1) + "]}";
}

std::string key(std::size_t number) {
    return "key" + std::to_string(100000 + number * 7919 % 100000);
}

// The same text, as each library holds it once it is parsed.
struct Parsed {
    std::string text;
    simdjson::padded_string padded;
    std::vector<std::uint8_t> document;
    cJSON *cjson;
    json_t *jansson;
    simdjson::dom::parser parser;
    simdjson::dom::element element;

    explicit Parsed(std::string given) : text(std::move(given)), padded(text) {
        document.resize(4 * text.size() + 8);
        std::size_t length = 0;
        if (kohiblad_parse(bytes_of(text), text.size(), depth, KOHIBLAD_EXPONENTS_FORBIDDEN,
                           document.data(), document.size(), &length)) {
            fail("kohiblad_parse");
        }
        document.resize(length);
        document.shrink_to_fit();
        cjson = cJSON_ParseWithLength(text.data(), text.size());
        jansson = json_loadb(text.data(), text.size(), 0, nullptr);
        if (!cjson || !jansson || parser.parse(padded).get(element)) fail("a peer's parser");
    }
    Parsed(const Parsed &) = delete;
    ~Parsed() {
        cJSON_Delete(cjson);
        json_decref(jansson);
    }
};

using Texts = std::vector<std::unique_ptr<Parsed>>;

Texts texts_of(std::size_t count, std::string (*text)(std::size_t)) {
    Texts made;
    for (std::size_t i = 0; i < count; i++) made.push_back(std::make_unique<Parsed>(text(i)));
    return made;
}

Texts text_of(std::string text) {
    Texts made;
    made.push_back(std::make_unique<Parsed>(std::move(text)));
    return made;
}

// The room for the largest result.
std::shared_ptr<std::vector<std::uint8_t>> room_of(const Texts &texts) {
    std::size_t most = 0;
    for (const auto &it : texts) most = std::max(most, 8 * it->text.size() + 64);
    return std::make_shared<std::vector<std::uint8_t>>(most);
}

// What each library does with each of these texts, as one call.
template <typename... Each>
std::vector<Repeated> over(const Texts &texts, Each... each) {
    return {repeated([&texts, each]() mutable {
        std::uint64_t sum = 0;
        for (const auto &it : texts) sum += std::uint64_t(each(*it));
        return sum;
    })...};
}

Row parsing(const char *name, const Texts &texts) {
    auto room = room_of(texts);
    auto parser = std::make_shared<simdjson::dom::parser>();
    auto calls = over(
        texts,
        [room](const Parsed &it) {
            std::size_t length = 0;
            kohiblad_parse(bytes_of(it.text), it.text.size(), depth, KOHIBLAD_EXPONENTS_FORBIDDEN,
                           room->data(), room->size(), &length);
            return length;
        },
        [](const Parsed &it) {
            cJSON *value = cJSON_ParseWithLength(it.text.data(), it.text.size());
            bool is_parsed = value != nullptr;
            cJSON_Delete(value);
            return is_parsed;
        },
        [](const Parsed &it) {
            json_t *value = json_loadb(it.text.data(), it.text.size(), 0, nullptr);
            bool is_parsed = value != nullptr;
            json_decref(value);
            return is_parsed;
        },
        [parser](const Parsed &it) {
            simdjson::dom::element element;
            return parser->parse(it.padded).get(element) == simdjson::SUCCESS;
        });
    return {"a text parsed, µs", name, 1e-6, texts.size(), calls};
}

Row printing(const char *name, const Texts &texts) {
    auto room = room_of(texts);
    char *const out = reinterpret_cast<char *>(room->data());
    auto calls = over(
        texts,
        [room](const Parsed &it) {
            std::size_t length = 0;
            kohiblad_print(it.document.data(), it.document.size(), SIZE_MAX,
                           room->data(), room->size(), &length);
            return length;
        },
        [room, out](const Parsed &it) {
            return cJSON_PrintPreallocated(it.cjson, out, int(room->size()), false);
        },
        [room, out](const Parsed &it) {
            return json_dumpb(it.jansson, out, room->size(), JSON_COMPACT);
        },
        [](const Parsed &it) { return simdjson::minify(it.element).size(); });
    return {"a text printed, µs", name, 1e-6, texts.size(), calls};
}

bool has(const Parsed &it, const std::string &key) {
    const std::vector<std::uint8_t> &bytes = it.document;
    const kohiblad_place place =
        kohiblad_find_key(bytes.data(), bytes.size(), bytes_of(key), key.size());
    return place.status == KOHIBLAD_OK;
}

// Finds each of these keys in each text.
Row finding(const char *name, const Texts &texts, const std::vector<std::string> &keys) {
    auto each_key = [&keys](auto find) {
        return [keys, find](const Parsed &it) {
            std::uint64_t sum = 0;
            for (const std::string &key : keys) sum += std::uint64_t(find(it, key));
            return sum;
        };
    };
    auto find = [](const Parsed &it, const std::string &key) { return has(it, key); };
    auto find_cjson = [](const Parsed &it, const std::string &key) {
        return cJSON_GetObjectItemCaseSensitive(it.cjson, key.c_str()) != nullptr;
    };
    auto find_jansson = [](const Parsed &it, const std::string &key) {
        return json_object_get(it.jansson, key.c_str()) != nullptr;
    };
    auto find_simdjson = [](const Parsed &it, const std::string &key) {
        return it.element.at_key(key).error() == simdjson::SUCCESS;
    };
    for (const auto &it : texts) {
        for (const std::string &key : keys) {
            if (!find(*it, key) || !find_cjson(*it, key) || !find_jansson(*it, key)
                || !find_simdjson(*it, key)) {
                fail("a key was not found");
            }
        }
    }
    auto calls = over(texts, each_key(find), each_key(find_cjson), each_key(find_jansson),
                      each_key(find_simdjson));
    return {"a key found, ns", name, 1e-9, texts.size() * keys.size(), calls};
}

// Finds a key in a row as it is stored: of ours the document, with its check, of the others the
// text, which simdjson reads no further than it has to.
Row reading(const char *name, const Texts &texts, const std::string &key) {
    auto parser = std::make_shared<simdjson::ondemand::parser>();
    auto calls = over(
        texts,
        [key](const Parsed &it) {
            return kohiblad_check(it.document.data(), it.document.size(), depth) && has(it, key);
        },
        [key](const Parsed &it) {
            cJSON *value = cJSON_ParseWithLength(it.text.data(), it.text.size());
            bool is_found = cJSON_GetObjectItemCaseSensitive(value, key.c_str()) != nullptr;
            cJSON_Delete(value);
            return is_found;
        },
        [key](const Parsed &it) {
            json_t *value = json_loadb(it.text.data(), it.text.size(), 0, nullptr);
            bool is_found = json_object_get(value, key.c_str()) != nullptr;
            json_decref(value);
            return is_found;
        },
        [key, parser](const Parsed &it) {
            simdjson::ondemand::document document;
            std::int64_t number = 0;
            return parser->iterate(it.padded).get(document) == simdjson::SUCCESS
                   && document[key].get_int64().get(number) == simdjson::SUCCESS;
        });
    return {"a key found in a row as it is stored, ns", name, 1e-9, texts.size(), calls};
}

}  // namespace

int main() {
    const Texts rows = texts_of(1000, record);
    const Texts column = text_of("[" + list_of(1000, record) + "]");
    const Texts numbers = text_of("[" + list_of(20000, number) + "]");
    const Texts strings = text_of("[" + list_of(2000, string) + "]");
    const Texts nested = text_of(tree(8));
    std::vector<std::string> keys;
    for (std::size_t i = 0; i < 1000; i++) keys.push_back(key(i));
    auto member = [&](std::size_t i) { return "\"" + keys[i] + "\":" + std::to_string(i); };
    const Texts wide = text_of("{" + list_of(1000, member) + "}");
    const std::vector<std::pair<const char *, const Texts &>> shapes = {
        {"a row of ten members", rows},     {"1,000 such rows in an array", column},
        {"20,000 numbers", numbers},        {"2,000 strings", strings},
        {"a tree of 6,561 leaves", nested}, {"an object of 1,000 members", wide},
    };

    std::vector<Row> timed;
    for (const auto &[name, texts] : shapes) timed.push_back(parsing(name, texts));
    for (const auto &[name, texts] : shapes) timed.push_back(printing(name, texts));
    timed.push_back(finding("the second of ten", rows, {"name"}));
    timed.push_back(finding("the last of ten", rows, {"year"}));
    timed.push_back(finding("each of 1,000", wide, keys));
    timed.push_back(reading("the first of ten", rows, "id"));
    timed.push_back(reading("the last of ten", rows, "year"));
    measure(timed);
    print(timed);
    return 0;
}

// Reads orders as JSON lines, adds up their totals by town, sorts them by their totals, marks the
// large ones, and shows the lines of those with a pen.
//
//     orders < orders.ndjson
#include <kohiblad.hpp>

#include <iostream>
#include <map>
#include <string>
#include <vector>

using kohiblad::Document;
using kohiblad::Result;
using Orders = std::vector<Document>;

// The documents of all lines, or why there is none of a line.
static Result<Orders> read_orders(std::istream &in) {
    Orders orders;
    std::string line;
    for (int number = 1; std::getline(in, line); number++) {
        auto order = Document::parse(line);
        if (!order) {
            std::cerr << "line " << number << ": " << kohiblad::fault_words(line) << '\n';
            return order.status();
        }
        orders.push_back(*std::move(order));
    }
    return orders;
}

// The sum of the totals in each town, as an object, and how many totals are no numbers.
static Result<Document> sums_by_town(const Orders &orders, std::uint64_t &unfit) {
    const kohiblad::Rows rows(orders);
    const auto totals = rows.take_decimal("$.total", 2);
    const auto towns = rows.take_text("$.customer.town");
    if (!totals) return totals.status();
    if (!towns) return towns.status();
    unfit = totals->unfit;
    std::map<std::string, kohiblad_int128_t> sums;
    for (std::size_t row = 0; row < rows.size(); row++)
        if (const auto town = (*towns)[row])
            sums[std::string(*town)] += (*totals)[row].value_or(0);
    kohiblad::ObjectBuilder object;
    for (const auto &[town, sum] : sums) object.add(town, kohiblad::decimal_of(sum, 2));
    return object.build();
}

// Marks an order as large, if its total is above 50.
static Result<Document> marked(const Document &order) {
    const auto cents = order.view()["total"].unscaled(2);
    if (!cents || *cents <= 5000) return order;
    return order.view().put("$.is_large", *Document::of(true));
}

int main() {
    auto orders = read_orders(std::cin);
    if (!orders) return 1;
    std::uint64_t unfit = 0;
    const auto sums = sums_by_town(*orders, unfit);
    if (!sums) {
        std::cerr << sums.status().reason() << '\n';
        return 1;
    }
    for (auto [town, sum] : sums->view().members()) std::cout << town << ": " << sum << '\n';
    std::cout << "totals that are no numbers: " << unfit << '\n';

    Orders sorted = *std::move(orders);
    if (kohiblad::sort_by(sorted, {"$.total"}) != KOHIBLAD_OK) return 1;
    const Document pen = *Document::parse(R"({"lines": [{"what": "pen"}]})");
    for (Document &order : sorted) {
        order = *marked(order);
        std::cout << *order.view().remove("$.lines") << '\n';
        if (!*order.view().contains(pen)) continue;
        for (auto line : order.view()["lines"])
            std::cout << "    " << line["what"] << " x " << line["count"] << '\n';
    }
}

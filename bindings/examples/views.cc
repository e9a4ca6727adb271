// Stores JSON texts, sorts them, looks a key up and prints, by the classes for C++.
#include <kohiblad.hpp>

#include <algorithm>
#include <iostream>
#include <vector>

using kohiblad::Document;

int main() {
    std::vector<Document> rows;
    for (std::string_view text : {R"({"id": 3, "price": 2.50})", R"({"id": 1, "price": null})",
                                  "[1, 2]", R"({"id": 2, "price": 2.5})", R"("a note")"}) {
        auto row = Document::parse(text);
        if (!row) {
            const kohiblad_fault fault = kohiblad::fault_of(text);
            std::cerr << text << ": " << row.status().reason() << " at byte " << fault.offset
                      << '\n';
            return 1;
        }
        rows.push_back(*std::move(row));
    }
    std::sort(rows.begin(), rows.end(), [](const Document &left, const Document &right) {
        return kohiblad::compare(left, right) < 0;
    });
    for (const Document &row : rows) {
        std::cout << *row.view().text();
        if (const auto price = row.view().get("price"))
            std::cout << "  costs " << *price->view().text();
        std::cout << '\n';
    }
}

/* The names and reasons of statuses that the header has, beside the names that the library has; and
 * the words that it has for faults of texts. */
#include "kohiblad.h"

#include <assert.h>
#include <stdio.h>
#include <string.h>

/* Texts, with the rule for exponents, and the words for their faults. */
static const struct { const char *text; uint32_t exponents; const char *words; } faults[] = {
    { "", 1, "expected a value at byte 0, found the end" },
    { "{\"a\" 1", 1, "expected ':' at byte 5, found '1'" },
    { "[1,]", 1, "expected a value at byte 3, found ']'" },
    { "[1", 0, "expected a digit, '.', ',' or ']' at byte 2, found the end" },
    { "[1 x", 1, "expected ',' or ']' at byte 3, found 'x'" },
    { "10,", 1, "expected a digit, '.', an exponent or the end at byte 2, found ','" },
    { "1e+5 -", 1, "expected the end at byte 5, found '-'" },
    { "{,}", 1, "expected a key or '}' at byte 1, found ','" },
    { "{\"a\":1,}", 1, "expected a key at byte 7, found '}'" },
    { "{\"a\":1]", 0, "expected a digit, '.', ',' or '}' at byte 6, found ']'" },
    { "nul", 1, "expected 'l' at byte 3, found the end" },
    { "truE", 1, "expected 'e' at byte 3, found 'E'" },
    { "\"a\nb\"", 1, "expected the rest of a string at byte 2, found 0x0a" },
    { "\"\\x\"", 1, "expected an escape at byte 2, found 'x'" },
    { "\"\\u00g0\"", 1, "expected a hexadecimal digit at byte 5, found 'g0'" },
    { "\"\\ud83dx\"", 1, "expected the other half of a surrogate pair at byte 7, found 'x'" },
    { "[']", 1, "expected a value or ']' at byte 1, found \"'\"" },
    { "[\xc3\xa9t\xc3\xa9]", 1, "expected a value or ']' at byte 1, found '\xc3\xa9t\xc3\xa9'" },
    { "[abcdefghijklmnopqrst]", 1,
      "expected a value or ']' at byte 1, found 'abcdefghijklmnopqrst'" },
    { "[abcdefghijklmnopqrstu]", 1,
      "expected a value or ']' at byte 1, found 'abcdefghijklmnopqrst..'" },
    { "\xef\xbb\xbf[]", 1, "expected a value at byte 0, found a byte order mark" },
    /* What a terminal may obey has an escape, which counts as one character. */
    { "[\xc2\x9b" "2J\xe2\x80\xae" "c\xe2\x81\xa6]", 1,
      "expected a value or ']' at byte 1, found '\\u009b2J\\u202ec\\u2066'" },
    { "[\xf3\xa0\x81\x81\xc2\xad\xe2\x80\xa8\xef\xbb\xbf\xe2\x80\x8f\xd8\x9c\xe1\xa0\x8e]", 1,
      "expected a value or ']' at byte 1, found "
      "'\\udb40\\udc41\\u00ad\\u2028\\ufeff\\u200f\\u061c\\u180e'" },
    { "[\xc2\x85" "aaaaaaaaaaaaaaaaaaa]", 1,
      "expected a value or ']' at byte 1, found '\\u0085aaaaaaaaaaaaaaaaaaa'" },
    { "[aaaaaaaaaaaaaaaaaaa\xc2\x85\xc2\x85]", 1,
      "expected a value or ']' at byte 1, found 'aaaaaaaaaaaaaaaaaaa\\u0085..'" },
    { "[\xf0\x9f\x98\x80\xe2\x82\xac]", 1,
      "expected a value or ']' at byte 1, found '\xf0\x9f\x98\x80\xe2\x82\xac'" },
    { "[1.]", 1, "at byte 3 of a number that is unfinished or too long, in '1.'" },
    { "[1e5]", 0,
      "at byte 2 of a number that is unfinished, too long, or has an exponent, in '1e5'" },
    { "1111111111111111111111111111111111111111", 1,
      "at byte 39 of a number that is unfinished or too long, in "
      "'1111111111111111111111111111111111111111'" },
    { "11111111111111111111111111111111111111111", 1,
      "at byte 39 of a number that is unfinished or too long, in "
      "'1111111111111111111111111111111111111111..'" },
    { "[[[[[[[[[[]]]]]]]]]]", 1, "the text nests deeper than the depth" },
    { "[\xff]", 1, "the text is not UTF-8" },
};

static void test_words(void) {
    for (size_t i = 0; i < sizeof faults / sizeof *faults; i++) {
        const uint8_t *text = (const uint8_t *)faults[i].text;
        size_t size = strlen(faults[i].text);
        uint32_t exponents = faults[i].exponents;
        char words[KOHIBLAD_WORDS_ROOM], cut[20];
        struct kohiblad_fault fault = kohiblad_text_fault(text, size, 9, exponents),
                              same = kohiblad_fault_words(text, size, 9, exponents, words,
                                                          sizeof words);
        if (strcmp(words, faults[i].words) != 0) printf("%s\n%s\n", faults[i].words, words);
        assert(strcmp(words, faults[i].words) == 0);
        assert(same.status == fault.status && same.offset == fault.offset);
        kohiblad_fault_words(text, size, 9, exponents, cut, sizeof cut);
        assert(strlen(cut) == sizeof cut - 1 && memcmp(cut, words, sizeof cut - 1) == 0);
    }
    for (uint32_t one = 1; one <= KOHIBLAD_EXPECTED_END; one <<= 1)
        assert(strcmp(kohiblad_expected_text(one), "Unknown") != 0);
    assert(strcmp(kohiblad_expected_text(KOHIBLAD_EXPECTED_END << 1), "Unknown") == 0);
}

int main(void) {
    for (uint32_t status = 0; status < 1000; status++) {
        uint8_t name[32];
        size_t length;
        const char *text = kohiblad_status_text(status), *reason = kohiblad_status_reason(status);
        assert(kohiblad_status_name(status, name, sizeof name, &length) == KOHIBLAD_OK);
        assert(strlen(text) == length && memcmp(text, name, length) == 0);
        for (uint32_t other = 0; other < status; other++) {
            int is_unknown = strcmp(text, "Unknown") == 0;
            assert(is_unknown || strcmp(reason, kohiblad_status_reason(other)) != 0);
        }
        assert(strlen(reason) > 10);
    }
    test_words();
    return 0;
}

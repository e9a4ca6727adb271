/* Errors: the function's name and that of the library's status. */
#include "extension.h"

SQLITE_EXTENSION_INIT3

char *status_message(const char *name, uint32_t status, const char *note)
{
    uint8_t status_name[32];
    size_t length;
    uint32_t failed = kohiblad_status_name(status, status_name, sizeof status_name, &length);
    return sqlite3_mprintf("%s: %.*s%s%s", name, failed ? 0 : (int)length, (char *)status_name,
                           note ? ": " : "", note ? note : "");
}

void fail_with(const struct caller *caller, char *message)
{
    if (message) sqlite3_result_error(caller->context, message, -1);
    else sqlite3_result_error_nomem(caller->context);
    sqlite3_free(message);
}

void fail_because(const struct caller *caller, uint32_t status, const char *note)
{
    bool no_memory = status == KOHIBLAD_OUT_OF_MEMORY;
    fail_with(caller, no_memory ? NULL : status_message(caller->name, status, note));
}

void fail(const struct caller *caller, uint32_t status)
{
    if (status == RESULT_TOO_BIG) sqlite3_result_error_toobig(caller->context);
    else if (status == INTERRUPTED) sqlite3_result_error_code(caller->context, SQLITE_INTERRUPT);
    else fail_because(caller, status, NULL);
}

/* To find the place takes memory: if that is refused, the status alone is reported. */
static void fail_text(const struct caller *caller, const struct bytes *text)
{
    char words[KOHIBLAD_WORDS_ROOM];
    struct kohiblad_fault fault = kohiblad_fault_words(text->at, text->size, KOHIBLAD_SQLITE_DEPTH,
                                                       KOHIBLAD_EXPONENTS_ALLOWED, words,
                                                       sizeof words);
    bool is_found = fault.status == KOHIBLAD_INVALID_JSON || fault.status == KOHIBLAD_BAD_NUMBER;
    if (is_found) fail_because(caller, fault.status, words);
    else fail(caller, KOHIBLAD_INVALID_JSON);
}

void fail_value(const struct caller *caller, uint32_t status, const struct sql_value *value)
{
    if (status == KOHIBLAD_INVALID_JSON) fail_text(caller, &value->bytes);
    else fail(caller, status);
}

/* tdl for SQLite: translations by libtdl. Build: gcc -O2 -fPIC -shared -I../sql -o tdl.so tdl.c $(pkg-config --cflags --libs tdl)

   tdl(SOURCE, TARGET, VALUE, [NAME, OPTION]..) gives the translation, or NULL if there is none, and tdl_reason(..) why there is none.
   tdl_canon(SOURCE, VALUE) gives the canonical link, and tdl_valid(SOURCE, VALUE) whether there is one. tdl_any(VALUE) gives the one form that reads
   it, and tdl_class(LINK, [GCP]) its class URI. A connection keeps its sessions (choices.h). */
#include <sqlite3ext.h>
#include "choices.h"

SQLITE_EXTENSION_INIT1

typedef struct {
    Choices choices;
    int users;
} Kept;

static Bytes bytes_of(sqlite3_value *given) {
    const uint8_t *at = sqlite3_value_text(given);
    return (Bytes){ at ? at : (const uint8_t *)"", at ? (size_t)sqlite3_value_bytes(given) : 0 };
}

static int form_of(sqlite3_value *given, int most, uint8_t *form) {
    int found = form_named(bytes_of(given), most);
    *form = (uint8_t)found;
    return found >= 0;
}

static int number_of(sqlite3_value *given, int least, int most, uint8_t *number) {
    sqlite3_int64 found = sqlite3_value_int64(given);
    *number = (uint8_t)found;
    return sqlite3_value_type(given) == SQLITE_INTEGER && found >= least && found <= most;
}

static int text_of(sqlite3_value *given, Bytes *bytes) {
    *bytes = bytes_of(given);
    return bytes->length != 0;
}

/* Reads an option, and returns what is wrong with it, or NULL. */
static const char *read_option(sqlite3_value *name, sqlite3_value *value, Choice *choice, Bytes *texts) {
    const char *word = (const char *)sqlite3_value_text(name);
    uint8_t number;
    if (!word)
        return "the name of an option is NULL";
    bool is_given = sqlite3_value_type(value) != SQLITE_NULL;
    if (!strcmp(word, "filter"))
        return !is_given || number_of(value, 0, 7, &choice->choice.filter) ? NULL : "filter is a number from 0 to 7";
    if (!strcmp(word, "gcp"))
        return !is_given || number_of(value, 1, 12, &choice->choice.gcp) ? NULL : "gcp is a number from 1 to 12";
    if (!strcmp(word, "keys_only")) {
        bool is_right = !is_given || number_of(value, 0, 1, &number);
        choice->choice.flags = is_given && is_right && number ? TDL_KEYS_ONLY : 0;
        return is_right ? NULL : "keys_only is 0 or 1";
    }
    if (!strcmp(word, "encoding"))
        return !is_given || text_of(value, &choice->names[ENCODING]) ? NULL : "encoding is the name of a tag's encoding";
    if (!strcmp(word, "stem"))
        return !is_given || text_of(value, &choice->names[STEM]) ? NULL : "stem is http:// or https:// and a host, without ?, # and a slash at its end";
    if (!strcmp(word, "tables"))
        return !is_given || text_of(value, &texts[TABLES]) ? NULL : "tables is the text of a table document";
    if (!strcmp(word, "prefixes"))
        return !is_given || text_of(value, &texts[PREFIXES]) ? NULL : "prefixes is the text of a list of company prefix lengths";
    return "an option is filter, gcp, keys_only, encoding, stem, tables or prefixes";
}

static const char *read_choice(int count, sqlite3_value **given, Choice *choice, Bytes *texts) {
    if (!form_of(given[0], TDL_LINK, &choice->choice.from))
        return "source is hex, tag, pure, raw, bracketed or link";
    choice->choice.to = TDL_CANON;
    if (count > 2 && !form_of(given[1], TDL_CANON, &choice->choice.to))
        return "target is hex, tag, pure, raw, bracketed, link or canon";
    for (int n = 3; n + 1 < count; n += 2) {
        const char *wrong = read_option(given[n], given[n + 1], choice, texts);
        if (wrong)
            return wrong;
    }
    return count > 2 && count % 2 == 0 ? "an option has a name and a value" : NULL;
}

static void reject(sqlite3_context *context, const Failure *why) {
    if (why->status == TDL_ARGUMENT)
        sqlite3_result_error(context, "stem is http:// or https:// and a host, without ?, # and a slash at its end", -1);
    else if (why->status == TDL_TABLES || why->status == TDL_PREFIXES) {
        int length = why->length > sizeof why->reason ? 0 : (int)why->length;
        char *told = sqlite3_mprintf("the %s are rejected: %.*s", why->status == TDL_TABLES ? "tables" : "prefixes", length, why->reason);
        sqlite3_result_error(context, told ? told : "out of memory", -1);
        sqlite3_free(told);
    } else
        sqlite3_result_error_nomem(context);
}

/* Returns the session of a call, or NULL once the reason why there is none is the result. */
static Session *session_for(sqlite3_context *context, int count, sqlite3_value **given) {
    Kept *kept = sqlite3_user_data(context);
    Choice choice = { .names = { { (const uint8_t *)"", 0 }, { TDL_STEM } } };
    Bytes texts[TEXTS] = { NO_TEXTS[TABLES], NO_TEXTS[PREFIXES] };
    Failure why = { 0 };
    Session *found = NULL;
    choice.choice.size = sizeof choice.choice;
    choice.choice.filter = TDL_ANY_FILTER;
    choice.choice.gcp = TDL_ANY_GCP;
    const char *wrong = count < 2 ? "a source, a target and a value are needed" : read_choice(count, given, &choice, texts);
    if (wrong) {
        sqlite3_result_error(context, wrong, -1);
        return NULL;
    }
    choice.documents = documents_of(&kept->choices, texts, &why);
    if (choice.documents)
        found = session_of(&kept->choices, &choice, &why);
    if (!found)
        reject(context, &why);
    return found;
}

/* Translates the text of a call, and returns the status: TDL_OK or TDL_NO, or another once NULL or an error is the result. */
static uint32_t translated(sqlite3_context *context, int count, sqlite3_value **given, uint8_t *out, size_t *len) {
    Session *session = session_for(context, count, given);
    sqlite3_value *value = given[count == 2 ? 1 : 2];
    if (!session || sqlite3_value_type(value) == SQLITE_NULL)
        return TDL_SHUT;
    Bytes text = bytes_of(value);
    uint32_t status = tdl_translate(&session->handle, text.at, text.length, out, TDL_ROOM, len);
    if (status > TDL_NO)
        sqlite3_result_error_nomem(context);
    return status;
}

/* Gives the answer if it has this status, and otherwise NULL. */
static void give(sqlite3_context *context, int count, sqlite3_value **given, uint32_t wanted) {
    uint8_t out[TDL_ROOM];
    size_t len;
    if (translated(context, count, given, out, &len) == wanted)
        sqlite3_result_text(context, (const char *)out, (int)len, SQLITE_TRANSIENT);
}

static void translate(sqlite3_context *context, int count, sqlite3_value **given) { give(context, count, given, TDL_OK); }

static void reason(sqlite3_context *context, int count, sqlite3_value **given) { give(context, count, given, TDL_NO); }

static void valid(sqlite3_context *context, int count, sqlite3_value **given) {
    uint8_t out[TDL_ROOM];
    size_t len;
    uint32_t status = translated(context, count, given, out, &len);
    if (status <= TDL_NO)
        sqlite3_result_int(context, status == TDL_OK);
}

static void any(sqlite3_context *context, int count, sqlite3_value **given) {
    Kept *kept = sqlite3_user_data(context);
    Failure why = { 0 };
    const char *name;
    uint32_t status = TDL_MEMORY;
    (void)count;
    if (sqlite3_value_type(given[0]) == SQLITE_NULL)
        return;
    Bytes text = bytes_of(given[0]);
    Documents *documents = documents_of(&kept->choices, NO_TEXTS, &why);
    if (documents)
        status = form_that_reads(&kept->choices, documents, text, &name);
    if (status > TDL_NO)
        sqlite3_result_error_nomem(context);
    else if (status == TDL_OK)
        sqlite3_result_text(context, name, -1, SQLITE_STATIC);
}

static void class_of(sqlite3_context *context, int count, sqlite3_value **given) {
    Kept *kept = sqlite3_user_data(context);
    Choice choice = plain_choice(TDL_LINK, TDL_CANON, NULL);
    Failure why = { 0 };
    Session *session = NULL;
    uint8_t out[TDL_ROOM];
    size_t len;
    if (sqlite3_value_type(given[0]) == SQLITE_NULL)
        return;
    if (count > 1 && sqlite3_value_type(given[1]) != SQLITE_NULL && !number_of(given[1], 1, 12, &choice.choice.gcp)) {
        sqlite3_result_error(context, "gcp is a number from 1 to 12", -1);
        return;
    }
    choice.documents = documents_of(&kept->choices, NO_TEXTS, &why);
    choice.has_classes = true;
    if (choice.documents)
        session = session_of(&kept->choices, &choice, &why);
    Bytes text = bytes_of(given[0]);
    uint32_t status = session ? tdl_class_uri(&session->handle, text.at, text.length, out, sizeof out, &len) : TDL_MEMORY;
    if (status > TDL_NO)
        sqlite3_result_error_nomem(context);
    else if (status == TDL_OK)
        sqlite3_result_text(context, (const char *)out, (int)len, SQLITE_TRANSIENT);
}

static void leave(void *all) {
    Kept *kept = all;
    if (--kept->users)
        return;
    for (int n = 0; n < DOCUMENTS; n++)
        if (kept->choices.documents[n].handle.at)
            unload(&kept->choices, &kept->choices.documents[n]);
    free(kept);
}

int sqlite3_tdl_init(sqlite3 *database, char **error, const sqlite3_api_routines *api) {
    SQLITE_EXTENSION_INIT2(api);
    static const struct { const char *name; int count; void (*call)(sqlite3_context *, int, sqlite3_value **); } FUNCTIONS[] = {
        { "tdl", -1, translate }, { "tdl_reason", -1, reason }, { "tdl_canon", 2, translate }, { "tdl_valid", 2, valid },
        { "tdl_any", 1, any }, { "tdl_class", 1, class_of }, { "tdl_class", 2, class_of },
    };
    const int how = SQLITE_UTF8 | SQLITE_DETERMINISTIC | SQLITE_INNOCUOUS;
    Kept *kept = calloc(1, sizeof *kept);
    int status = kept ? SQLITE_OK : SQLITE_NOMEM;
    (void)error;
    for (size_t n = 0; n < sizeof FUNCTIONS / sizeof *FUNCTIONS && status == SQLITE_OK; n++) {
        /* (SQLite calls `leave` too if it cannot make the function) */
        kept->users++;
        status = sqlite3_create_function_v2(database, FUNCTIONS[n].name, FUNCTIONS[n].count, how, kept, FUNCTIONS[n].call, NULL, NULL, leave);
    }
    return status;
}

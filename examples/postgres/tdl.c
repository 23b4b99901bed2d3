/* tdl for PostgreSQL: translations by libtdl, in the server's process.

   A process of the server keeps its sessions (choices.h). A call whose arguments but the text are constants finds its session once; another
   compares what they are now, since a variable of PL/pgSQL and a row's column change between two calls of one place. */
#include "postgres.h"
#include "access/detoast.h"
#include "fmgr.h"
#include "nodes/nodeFuncs.h"
#include "storage/proc.h"
#include "utils/builtins.h"
#include "utils/guc.h"
#include "utils/memutils.h"
#include "choices.h"

PG_MODULE_MAGIC;

enum { FILTER = 3, GCP, OF_ENCODING, KEYS_ONLY, OF_STEM, OF_TEXTS };

/* What a call remembers of the one before: its session, whether all arguments but the text are constants, the settings as they then were, and its load if
   the documents were given by their places in a table. */
typedef struct {
    Session *session;
    uint64 number, load, settings;
    Documents *documents;
    bool is_constant;
    LocalTransactionId transaction;
    varatt_external places[TEXTS];
} Remembered;

/* The content of the file that a setting names. */
typedef struct {
    size_t length;
    uint8 bytes[FLEXIBLE_ARRAY_MEMBER];
} Content;

static Choices choices;
static char *paths[TEXTS];
static Bytes of_settings[TEXTS];
/* how often the settings were changed */
static uint64 settings;

#define BYTES(name) (const uint8_t *)VARDATA_ANY(name), VARSIZE_ANY_EXHDR(name)

static Bytes bytes_of(text *given) { return (Bytes){ BYTES(given) }; }

/* Ends the statement with what is wrong. */
static void reject(const Failure *why) {
    int length = why->length > sizeof why->reason ? 0 : (int)why->length;
    if (why->status == TDL_ARGUMENT)
        ereport(ERROR, (errcode(ERRCODE_INVALID_PARAMETER_VALUE), errmsg("stem is http:// or https:// and a host, without ?, # and a slash at its end")));
    if (why->status == TDL_TABLES || why->status == TDL_PREFIXES)
        ereport(ERROR, (errcode(ERRCODE_INVALID_PARAMETER_VALUE),
                        errmsg("the %s are rejected: %.*s", why->status == TDL_TABLES ? "tables" : "prefixes", length, (const char *)why->reason)));
    ereport(ERROR, (errcode(ERRCODE_OUT_OF_MEMORY), errmsg("out of memory")));
}

static uint8 form_of(FunctionCallInfo fcinfo, int n, const char *name, int most) {
    text *given = PG_ARGISNULL(n) ? NULL : PG_GETARG_TEXT_PP(n);
    int found = given ? form_named(bytes_of(given), most) : -1;
    if (found < 0)
        ereport(ERROR, (errcode(ERRCODE_INVALID_PARAMETER_VALUE),
                        errmsg("%s is hex, tag, pure, raw, bracketed%s, not %s", name, most == TDL_CANON ? ", link or canon" : " or link",
                               given ? quote_literal_cstr(text_to_cstring(given)) : "NULL")));
    return (uint8)found;
}

static uint8 number_of(const char *name, int32 given, int32 none, int32 least, int32 most) {
    if (given != none && (given < least || given > most))
        ereport(ERROR, (errcode(ERRCODE_INVALID_PARAMETER_VALUE), errmsg("%s is a number from %d to %d, not %d", name, least, most, given)));
    return (uint8)given;
}

static bool is_given(FunctionCallInfo fcinfo, int n) { return n < PG_NARGS() && !PG_ARGISNULL(n); }

/* Returns whether an argument is a constant of its query. A variable of PL/pgSQL is none, and neither is one of a prepared statement. */
static bool is_constant(FunctionCallInfo fcinfo, int n) {
    Node *call = fcinfo->flinfo->fn_expr;
    return call && IsA(call, FuncExpr) && n < list_length(((FuncExpr *)call)->args) && IsA(list_nth(((FuncExpr *)call)->args, n), Const);
}

static Remembered *remembered(FunctionCallInfo fcinfo) {
    Remembered *kept = fcinfo->flinfo->fn_extra;
    if (!kept) {
        kept = fcinfo->flinfo->fn_extra = MemoryContextAllocZero(fcinfo->flinfo->fn_mcxt, sizeof *kept);
        kept->is_constant = true;
        for (int n = 1; n < PG_NARGS(); n++)
            kept->is_constant = kept->is_constant && is_constant(fcinfo, n);
    }
    return kept;
}

/* Finds where in a table the documents of a call lie, and returns whether both lie in one or are empty. */
static bool are_placed(FunctionCallInfo fcinfo, varatt_external *places) {
    bool are = true;
    memset(places, 0, TEXTS * sizeof *places);
    for (int n = 0; n < TEXTS; n++) {
        struct varlena *raw = is_given(fcinfo, OF_TEXTS + n) ? (struct varlena *)PG_GETARG_POINTER(OF_TEXTS + n) : NULL;
        if (raw && VARATT_IS_EXTERNAL_ONDISK(raw))
            VARATT_EXTERNAL_GET_POINTER(places[n], raw);
        else if (raw && (VARATT_IS_EXTERNAL(raw) || VARSIZE_ANY_EXHDR(raw)))
            are = false;
    }
    return are;
}

/* Returns the load of the documents of a call: those of its arguments, or else of the settings. A place in a table keeps its text as long as a
   transaction sees it, so a document is compared once for each. */
static Documents *documents_for(FunctionCallInfo fcinfo, Remembered *kept) {
    varatt_external places[TEXTS];
    bool are = are_placed(fcinfo, places);
    Bytes texts[TEXTS];
    Failure why = { 0 };
    if (are && kept->load && kept->documents->number == kept->load && kept->transaction == MyProc->lxid && !memcmp(places, kept->places, sizeof places))
        return kept->documents;
    for (int n = 0; n < TEXTS; n++) {
        texts[n] = is_given(fcinfo, OF_TEXTS + n) ? bytes_of(PG_GETARG_TEXT_PP(OF_TEXTS + n)) : NO_TEXTS[n];
        if (!texts[n].length && of_settings[n].at)
            texts[n] = of_settings[n];
    }
    kept->load = 0;
    kept->documents = documents_of(&choices, texts, &why);
    if (!kept->documents)
        reject(&why);
    kept->load = are ? kept->documents->number : 0;
    kept->transaction = MyProc->lxid;
    memcpy(kept->places, places, sizeof places);
    return kept->documents;
}

/* Returns the choice of a call: (value, source, target, filter, gcp, encoding, keys_only, stem, tables, prefixes), or (value, source). NULL for an
   option is one that is not given. */
static Choice choice_of(FunctionCallInfo fcinfo, Remembered *kept) {
    Choice made = { .names = { { (const uint8_t *)"", 0 }, { TDL_STEM } } };
    bool has_target = PG_NARGS() > GCP;
    made.choice.size = sizeof made.choice;
    made.choice.from = form_of(fcinfo, 1, "source", TDL_LINK);
    made.choice.to = has_target ? form_of(fcinfo, 2, "target", TDL_CANON) : TDL_CANON;
    made.choice.filter = is_given(fcinfo, FILTER) ? number_of("filter", PG_GETARG_INT32(FILTER), -1, 0, 7) : TDL_ANY_FILTER;
    made.choice.gcp = is_given(fcinfo, GCP) ? number_of("gcp", PG_GETARG_INT32(GCP), 0, 1, 12) : TDL_ANY_GCP;
    made.choice.flags = is_given(fcinfo, KEYS_ONLY) && PG_GETARG_BOOL(KEYS_ONLY) ? TDL_KEYS_ONLY : 0;
    if (is_given(fcinfo, OF_ENCODING))
        made.names[ENCODING] = bytes_of(PG_GETARG_TEXT_PP(OF_ENCODING));
    if (is_given(fcinfo, OF_STEM))
        made.names[STEM] = bytes_of(PG_GETARG_TEXT_PP(OF_STEM));
    made.documents = documents_for(fcinfo, kept);
    return made;
}

static Session *session_for(FunctionCallInfo fcinfo) {
    Remembered *kept = remembered(fcinfo);
    Failure why = { 0 };
    Choice choice;
    if (kept->settings != settings)
        kept->number = kept->load = 0;
    if (kept->number && kept->session->number == kept->number && kept->is_constant)
        return use(&choices, kept->session);
    choice = choice_of(fcinfo, kept);
    if (kept->number && kept->session->number == kept->number && is_of(kept->session, &choice))
        return use(&choices, kept->session);
    kept->number = 0;
    kept->session = session_of(&choices, &choice, &why);
    if (!kept->session)
        reject(&why);
    kept->number = kept->session->number;
    kept->settings = settings;
    return kept->session;
}

/* Translates the text of a call, which is not NULL, and returns the status: TDL_OK or TDL_NO. */
static uint32_t translated(FunctionCallInfo fcinfo, uint8_t *out, size_t *len) {
    Session *session = session_for(fcinfo);
    text *value = PG_GETARG_TEXT_PP(0);
    uint32_t status = tdl_translate(&session->handle, BYTES(value), out, TDL_ROOM, len);
    if (status > TDL_NO)
        ereport(ERROR, (errcode(ERRCODE_OUT_OF_MEMORY), errmsg("out of memory")));
    return status;
}

/* Returns the answer of a status to the text of a call, or NULL if it has the other one. */
static Datum answer(FunctionCallInfo fcinfo, uint32_t wanted) {
    uint8_t out[TDL_ROOM];
    size_t len;
    if (PG_ARGISNULL(0) || translated(fcinfo, out, &len) != wanted)
        PG_RETURN_NULL();
    PG_RETURN_TEXT_P(cstring_to_text_with_len((const char *)out, (int)len));
}

PG_FUNCTION_INFO_V1(pg_tdl_translate);
Datum pg_tdl_translate(PG_FUNCTION_ARGS) { return answer(fcinfo, TDL_OK); }

PG_FUNCTION_INFO_V1(pg_tdl_reason);
Datum pg_tdl_reason(PG_FUNCTION_ARGS) { return answer(fcinfo, TDL_NO); }

PG_FUNCTION_INFO_V1(pg_tdl_valid);
Datum pg_tdl_valid(PG_FUNCTION_ARGS) {
    uint8_t out[TDL_ROOM];
    size_t len;
    if (PG_ARGISNULL(0))
        PG_RETURN_NULL();
    PG_RETURN_BOOL(translated(fcinfo, out, &len) == TDL_OK);
}

/* Returns the load of the documents that the settings name, or the built-in ones. */
static Documents *documents_of_settings(void) {
    Bytes texts[TEXTS];
    Failure why = { 0 };
    Documents *found;
    for (int n = 0; n < TEXTS; n++)
        texts[n] = of_settings[n].at ? of_settings[n] : NO_TEXTS[n];
    found = documents_of(&choices, texts, &why);
    if (!found)
        reject(&why);
    return found;
}

PG_FUNCTION_INFO_V1(pg_tdl_any);
Datum pg_tdl_any(PG_FUNCTION_ARGS) {
    const char *name;
    uint32_t status;
    if (PG_ARGISNULL(0))
        PG_RETURN_NULL();
    status = form_that_reads(&choices, documents_of_settings(), bytes_of(PG_GETARG_TEXT_PP(0)), &name);
    if (status > TDL_NO)
        ereport(ERROR, (errcode(ERRCODE_OUT_OF_MEMORY), errmsg("out of memory")));
    if (status == TDL_NO)
        PG_RETURN_NULL();
    PG_RETURN_TEXT_P(cstring_to_text(name));
}

PG_FUNCTION_INFO_V1(pg_tdl_class);
Datum pg_tdl_class(PG_FUNCTION_ARGS) {
    Choice choice = plain_choice(TDL_LINK, TDL_CANON, NULL);
    uint8_t out[TDL_ROOM];
    size_t len;
    Failure why = { 0 };
    Session *session;
    text *value;
    uint32_t status;
    if (PG_ARGISNULL(0))
        PG_RETURN_NULL();
    choice.documents = documents_of_settings();
    choice.choice.gcp = is_given(fcinfo, 1) ? number_of("gcp", PG_GETARG_INT32(1), 0, 1, 12) : TDL_ANY_GCP;
    choice.has_classes = true;
    session = session_of(&choices, &choice, &why);
    if (!session)
        reject(&why);
    value = PG_GETARG_TEXT_PP(0);
    status = tdl_class_uri(&session->handle, BYTES(value), out, sizeof out, &len);
    if (status > TDL_NO)
        ereport(ERROR, (errcode(ERRCODE_OUT_OF_MEMORY), errmsg("out of memory")));
    if (status == TDL_NO)
        PG_RETURN_NULL();
    PG_RETURN_TEXT_P(cstring_to_text_with_len((const char *)out, (int)len));
}

/* Reads the file that a setting is to name. */
static bool read_setting(char **path, void **extra, GucSource source) {
    FILE *file = **path ? fopen(*path, "rb") : NULL;
    Content *content = NULL;
    long length = file && !fseek(file, 0, SEEK_END) ? ftell(file) : -1;
    bool is_read = false;
    (void)source;
    if (length >= 0 && !fseek(file, 0, SEEK_SET) && (content = malloc(sizeof *content + (size_t)length))) {
        content->length = (size_t)length;
        is_read = fread(content->bytes, 1, content->length, file) == content->length;
    }
    if (file)
        fclose(file);
    if (**path && !is_read) {
        free(content);
        GUC_check_errdetail("The file %s cannot be read.", *path);
        return false;
    }
    *extra = content;
    return true;
}

static void take_setting(int n, const Content *content) {
    of_settings[n].at = content ? content->bytes : NULL;
    of_settings[n].length = content ? content->length : 0;
    settings++;
}

static void take_tables(const char *path, void *extra) { (void)path, take_setting(TABLES, extra); }

static void take_prefixes(const char *path, void *extra) { (void)path, take_setting(PREFIXES, extra); }

void _PG_init(void);
void _PG_init(void) {
    DefineCustomStringVariable("tdl.tables", "The file of the tables, where a call gives none.", NULL, &paths[TABLES], "", PGC_SUSET, 0, read_setting,
                               take_tables, NULL);
    DefineCustomStringVariable("tdl.prefixes", "The file of the company prefix lengths, where a call gives none.", NULL, &paths[PREFIXES], "", PGC_SUSET, 0,
                               read_setting, take_prefixes, NULL);
    MarkGUCPrefixReserved("tdl");
}

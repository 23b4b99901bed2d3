/* choices.h: the sessions that a database keeps, one for each choice of forms, options and documents, for the extensions beside.

   A choice is found by a hash. Sessions over the same documents share one load. At most CHOICES sessions and DOCUMENTS loads are kept: the one
   that was not used for the longest time goes, a load with all its sessions. */
#ifndef CHOICES_H
#define CHOICES_H
#include <stdbool.h>
#include <stdlib.h>
#include <string.h>
#include <tdl.h>

enum { CHOICES = 1000, SLOTS = 2048, DOCUMENTS = 16 };
/* the names of a choice, and the texts of a load */
enum { ENCODING, STEM, NAMES, TABLES = 0, PREFIXES, TEXTS };

typedef struct {
    const uint8_t *at;
    size_t length;
} Bytes;

/* A pair of documents that is loaded, with a copy of its texts; `number` is another for each load. */
typedef struct {
    tdl_handle handle;
    Bytes texts[TEXTS];
    uint64_t hash, number, used;
} Documents;

typedef struct {
    tdl_choice choice;
    Bytes names[NAMES];
    const Documents *documents;
    bool has_classes;
} Choice;

/* A session, with a copy of its choice; `next` leads to another of the same slot, or to another free place, `newer` and `older` to those used after
   and before it. Its place stays, so who remembers a session compares its number, which is 0 for a free place. */
typedef struct Session {
    tdl_handle handle;
    Choice of;
    uint64_t number;
    uint32_t slot;
    struct Session *next, *newer, *older;
} Session;

typedef struct {
    Session sessions[CHOICES], *slots[SLOTS], *newest, *oldest, *free;
    Documents documents[DOCUMENTS];
    uint64_t made, asked;
    uint32_t begun;
} Choices;

/* Why there is no session: a status of tdl.h, and the reason of a rejected document. */
typedef struct {
    uint32_t status;
    size_t length;
    uint8_t reason[512];
} Failure;

static const char *const FORMS[] = { "hex", "tag", "pure", "raw", "bracketed", "link", "canon" };
static const Bytes NO_TEXTS[TEXTS] = { { (const uint8_t *)"", 0 }, { (const uint8_t *)"", 0 } };

static bool is_equal(Bytes one, Bytes other) { return one.length == other.length && !memcmp(one.at, other.at, one.length); }

static uint64_t hashed(uint64_t hash, Bytes bytes) {
    const uint8_t *at = bytes.at, *end = at + bytes.length;
    uint64_t word;
    for (hash ^= bytes.length; end - at >= 8; at += 8) {
        memcpy(&word, at, 8);
        hash = (hash ^ word) * 0x9E3779B97F4A7C15u;
        hash ^= hash >> 29;
    }
    for (; at < end; at++)
        hash = (hash ^ *at) * 0x100000001B3u;
    return hash ^ hash >> 32;
}

/* Copies bytes, one behind the other, into one block, which begins at the first. */
static bool keep(Bytes *to, const Bytes *from, int count) {
    size_t length = 1;
    uint8_t *at;
    for (int n = 0; n < count; n++)
        length += from[n].length;
    if (!(at = malloc(length)))
        return false;
    for (int n = 0; n < count; n++) {
        to[n].at = from[n].length ? memcpy(at, from[n].at, from[n].length) : at;
        to[n].length = from[n].length;
        at += from[n].length;
    }
    return true;
}

static void unlink_used(Choices *all, Session *it) {
    *(it->newer ? &it->newer->older : &all->newest) = it->older;
    *(it->older ? &it->older->newer : &all->oldest) = it->newer;
}

/* Notes that a session is the one that was used last, and returns it. */
static Session *use(Choices *all, Session *it) {
    if (all->newest == it)
        return it;
    unlink_used(all, it);
    it->newer = NULL;
    it->older = all->newest;
    all->newest->newer = it;
    return all->newest = it;
}

static void forget(Choices *all, Session *it) {
    Session **at = &all->slots[it->slot];
    while (*at != it)
        at = &(*at)->next;
    *at = it->next;
    unlink_used(all, it);
    tdl_close(&it->handle);
    free((void *)it->of.names[0].at);
    memset(it, 0, sizeof *it);
    it->next = all->free;
    all->free = it;
}

/* Returns a free place for a session. */
static Session *free_place(Choices *all) {
    Session *found;
    if (!all->free && all->begun < CHOICES)
        return &all->sessions[all->begun++];
    if (!all->free)
        forget(all, all->oldest);
    found = all->free;
    all->free = found->next;
    return found;
}

static void unload(Choices *all, Documents *gone) {
    for (Session *it = all->newest, *older; it; it = older) {
        older = it->older;
        if (it->of.documents == gone)
            forget(all, it);
    }
    tdl_close(&gone->handle);
    free((void *)gone->texts[0].at);
    memset(gone, 0, sizeof *gone);
}

/* Returns the load of two texts, or NULL with the reason why there is none. */
static Documents *documents_of(Choices *all, const Bytes *texts, Failure *why) {
    static const tdl_choice PLAIN = { sizeof PLAIN, TDL_HEX, TDL_CANON, TDL_ANY_FILTER, TDL_ANY_GCP, 0 };
    uint64_t hash = hashed(hashed(0, texts[TABLES]), texts[PREFIXES]);
    Documents made = { .hash = hash }, *place = all->documents;
    for (Documents *it = all->documents; it < all->documents + DOCUMENTS; it++) {
        if (it->handle.at && it->hash == hash && is_equal(it->texts[TABLES], texts[TABLES]) && is_equal(it->texts[PREFIXES], texts[PREFIXES])) {
            it->used = ++all->asked;
            return it;
        }
        if (it->used < place->used)
            place = it;
    }
    why->status = tdl_open(&made.handle, &PLAIN, TDL_NONE, TDL_STEM, texts[TABLES].at, texts[TABLES].length, texts[PREFIXES].at, texts[PREFIXES].length,
                           why->reason, sizeof why->reason, &why->length);
    if (why->status == TDL_OK && !keep(made.texts, texts, TEXTS)) {
        tdl_close(&made.handle);
        why->status = TDL_MEMORY;
    }
    if (why->status != TDL_OK)
        return NULL;
    if (place->handle.at)
        unload(all, place);
    made.number = ++all->made;
    made.used = ++all->asked;
    *place = made;
    return place;
}

static bool is_of(const Session *it, const Choice *choice) {
    return it->of.documents == choice->documents && it->of.has_classes == choice->has_classes && !memcmp(&it->of.choice, &choice->choice, sizeof choice->choice)
           && is_equal(it->of.names[ENCODING], choice->names[ENCODING]) && is_equal(it->of.names[STEM], choice->names[STEM]);
}

/* Returns the session of a choice, or NULL with the reason why there is none. */
static Session *session_of(Choices *all, const Choice *choice, Failure *why) {
    const Bytes *names = choice->names;
    Bytes forms = { (const uint8_t *)&choice->choice, sizeof choice->choice };
    uint64_t hash = hashed(hashed(hashed(choice->documents->number, forms), names[ENCODING]), names[STEM]);
    uint32_t slot = (uint32_t)(hash % SLOTS);
    Session made = { .of.choice = choice->choice, .of.documents = choice->documents, .of.has_classes = choice->has_classes, .slot = slot }, *place;
    for (Session *it = all->slots[slot]; it; it = it->next)
        if (is_of(it, choice))
            return use(all, it);
    why->status = keep(made.of.names, names, NAMES) ? TDL_OK : TDL_MEMORY;
    if (why->status == TDL_OK)
        why->status = tdl_share(&made.handle, (tdl_handle *)&choice->documents->handle, &choice->choice, names[ENCODING].at, names[ENCODING].length,
                                names[STEM].at, names[STEM].length);
    if (why->status == TDL_OK && choice->has_classes)
        why->status = tdl_load_classes(&made.handle, TDL_NONE, why->reason, sizeof why->reason, &why->length);
    if (why->status != TDL_OK) {
        tdl_close(&made.handle);
        free((void *)made.of.names[0].at);
        return NULL;
    }
    place = free_place(all);
    made.number = ++all->made;
    made.next = all->slots[slot];
    made.older = all->newest;
    *place = made;
    *(all->newest ? &all->newest->newer : &all->oldest) = place;
    all->slots[slot] = all->newest = place;
    return place;
}

/* Returns a choice of two forms without options, but the stem of links that GS1 has for all. */
static Choice plain_choice(uint8_t from, uint8_t to, const Documents *documents) {
    Choice made = { .names = { { (const uint8_t *)"", 0 }, { TDL_STEM } }, .documents = documents };
    made.choice.size = sizeof made.choice;
    made.choice.from = from;
    made.choice.to = to;
    made.choice.filter = TDL_ANY_FILTER;
    made.choice.gcp = TDL_ANY_GCP;
    return made;
}

/* Returns the status of the canonical link of a text in a form: TDL_OK, TDL_NO or TDL_MEMORY. */
static uint32_t reads(Choices *all, const Documents *documents, uint8_t form, Bytes text) {
    Choice choice = plain_choice(form, TDL_CANON, documents);
    uint8_t out[TDL_ROOM];
    size_t len;
    Failure why = { 0 };
    Session *session = session_of(all, &choice, &why);
    return session ? tdl_translate(&session->handle, text.at, text.length, out, sizeof out, &len) : TDL_MEMORY;
}

static size_t count_of(Bytes text, const char *set) {
    size_t count = 0;
    while (count < text.length && text.at[count] && strchr(set, text.at[count]))
        count++;
    return count;
}

static bool begins(Bytes text, const char *with, bool is_any_case) {
    size_t n = 0;
    for (; with[n]; n++)
        if (n == text.length || (is_any_case && text.at[n] >= 'A' && text.at[n] <= 'Z' ? text.at[n] + 32 : text.at[n]) != (uint8_t)with[n])
            return false;
    return true;
}

/* Returns a text of digits alone as a GTIN or an SSCC: whether it has such a length, its element string in `out`, and its name. */
static bool as_key(Bytes text, uint8_t out[20], Bytes *element, const char **name) {
    size_t wanted = text.length == 18 ? 18 : 14, padded = wanted - text.length;
    if (count_of(text, "0123456789") != text.length || (text.length != 8 && text.length != 18 && (text.length < 12 || text.length > 14)))
        return false;
    *name = wanted == 18 ? "sscc" : "gtin";
    memcpy(out, wanted == 18 ? "00" : "01", 2);
    memset(out + 2, '0', padded);
    memcpy(out + 2 + padded, text.at, text.length);
    *element = (Bytes){ out, wanted + 2 };
    return true;
}

/* Finds the one form that reads a text, among gtin and sscc too, in the order that `python3 -m tdl csv --from any` has; none if two could be meant.
   Returns TDL_OK, TDL_NO or TDL_MEMORY. */
static uint32_t form_that_reads(Choices *all, const Documents *documents, Bytes text, const char **name) {
    static const struct { const char *begin; bool is_any_case; uint8_t form; } STARTS[] = {
        { "http://", true, TDL_LINK }, { "https://", true, TDL_LINK }, { "urn:epc:tag:", false, TDL_TAG }, { "urn:epc:id:", false, TDL_PURE },
        { "(", false, TDL_BRACKETED },
    };
    uint8_t key[20];
    uint32_t one, other;
    Bytes element;
    for (; text.length && strchr(" \t", text.at[0]); text.length--)
        text.at++;
    for (; text.length && strchr(" \t", text.at[text.length - 1]);)
        text.length--;
    for (size_t n = 0; n < sizeof STARTS / sizeof *STARTS; n++)
        if (begins(text, STARTS[n].begin, STARTS[n].is_any_case)) {
            *name = FORMS[STARTS[n].form];
            return reads(all, documents, STARTS[n].form, text);
        }
    if (!text.length)
        return TDL_NO;
    other = reads(all, documents, TDL_RAW, text);
    if (as_key(text, key, &element, name))
        one = reads(all, documents, TDL_RAW, element);
    else {
        *name = FORMS[TDL_HEX];
        one = text.length % 4 || count_of(text, "0123456789ABCDEFabcdef") != text.length ? TDL_NO : reads(all, documents, TDL_HEX, text);
    }
    if (one > TDL_NO || other > TDL_NO)
        return TDL_MEMORY;
    if (one == TDL_NO && other == TDL_OK && !as_key(text, key, &element, name))
        *name = FORMS[TDL_RAW];
    else if (other == TDL_OK)
        return TDL_NO;
    return one == TDL_OK || other == TDL_OK ? TDL_OK : TDL_NO;
}

/* Returns the form that this is the name of, or -1. */
static int form_named(Bytes name, int most) {
    for (int n = 0; n <= most; n++)
        if (strlen(FORMS[n]) == name.length && !memcmp(FORMS[n], name.at, name.length))
            return n;
    return -1;
}
#endif

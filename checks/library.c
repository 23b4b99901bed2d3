/* library ACTION ..: asks libtdl, for tests/test_library.py.

   answers one|lines FROM TO FILTER GCP KEYS_ONLY ENCODING STEM TABLES PREFIXES: answers the lines of standard input, by a call for each or
     by one for all, as `tdl` prints them; files are named `-` for none. A session that is not opened gives `refused WHICH REASON`.
   calls: calls with buffers of each length around the answer's, handles without a session, numbers out of range, and bytes of all kinds.
   faults STEP: denies each STEPth request for memory in turn (linked with --wrap=malloc, --wrap=realloc).
   threads: eight threads with a handle each, then with handles over the same tables, then with one behind a lock.
   stack BYTES: makes the calls in a thread with so much stack.
   churn COUNT FILE: opens and closes COUNT sessions of the tables of a file (`-`: the built-in ones); the bytes that are held have to be
     the same after the first and the last. (Blocks that glibc keeps for each thread count as held, so it is told to keep none.)

   Each buffer is a block of its own, so that valgrind and the address sanitizer see what is read or written beyond it. The status is 0, or
   that of the first line that was not as it has to be, which is printed. */
#include "tdl.h"
#include <malloc.h>
#include <pthread.h>
#include <stdio.h>
#include <stdlib.h>
#include <string.h>

#define CHECK(it) do { if (!(it)) { fprintf(stderr, "library.c:%d: %s\n", __LINE__, #it); exit(1); } } while (0)

static const char HEX[] = "3074257BF7194E4000001A85", LINK[] = "https://id.gs1.org/01/80614141123458/21/6789";

/* Bytes in a block of exactly their length. */
typedef struct { uint8_t *at; size_t length; } bytes;

static bytes block(size_t length) {
    bytes made = { malloc(length ? length : 1), length };
    CHECK(made.at);
    return made;
}

static bytes bytes_of(const void *from, size_t length) {
    bytes made = block(length);
    memcpy(made.at, from, length);
    return made;
}

static bytes text(const char *from) { return bytes_of(from, strlen(from)); }

static bytes whole(FILE *stream) {
    bytes made = { malloc(1), 0 };
    size_t room = 1, more;
    while ((more = fread(made.at + made.length, 1, room - made.length, stream)) > 0) {
        made.length += more;
        if (made.length == room) {
            room *= 2;
            made.at = realloc(made.at, room);
            CHECK(made.at);
        }
    }
    bytes exact = bytes_of(made.at, made.length);
    free(made.at);
    return exact;
}

static bytes file(const char *name) {
    if (!strcmp(name, "-"))
        return block(0);
    FILE *stream = fopen(name, "rb");
    CHECK(stream);
    bytes made = whole(stream);
    fclose(stream);
    return made;
}

static uint32_t open_by(tdl_handle *handle, tdl_choice choice, bytes encoding, bytes stem, bytes tables, bytes prefixes, bytes out, size_t *len) {
    return tdl_open(handle, &choice, encoding.at, encoding.length, stem.at, stem.length, tables.at, tables.length, prefixes.at, prefixes.length,
                    out.at, out.length, len);
}

static uint32_t open_plain(tdl_handle *handle, int from, int to) {
    tdl_choice choice = { sizeof choice, (uint8_t)from, (uint8_t)to, TDL_ANY_FILTER, TDL_ANY_GCP, 0 };
    uint8_t out[1];
    size_t len;
    return tdl_open(handle, &choice, TDL_NONE, TDL_STEM, TDL_NONE, TDL_NONE, out, 0, &len);
}

static uint32_t ask(tdl_handle *handle, bytes asked, bytes out, size_t *len) {
    return tdl_translate(handle, asked.at, asked.length, out.at, out.length, len);
}

/* answers .. */

static void answer_each(tdl_handle *handle, bytes lines) {
    bytes out = block(TDL_ROOM);
    for (size_t at = 0; at < lines.length;) {
        uint8_t *end = memchr(lines.at + at, '\n', lines.length - at);
        size_t stop = end ? (size_t)(end - lines.at) : lines.length, length = stop - at, len = 0;
        if (length && lines.at[stop - 1] == '\r')
            length--;
        bytes asked = bytes_of(lines.at + at, length);
        uint32_t status = ask(handle, asked, out, &len);
        CHECK(status == TDL_OK || status == TDL_NO);
        CHECK(len <= out.length);
        printf("%s ", status == TDL_OK ? "ok" : "no");
        fwrite(out.at, 1, len, stdout);
        putchar('\n');
        free(asked.at);
        at = stop + 1;
    }
    free(out.at);
}

static void answer_all(tdl_handle *handle, bytes lines) {
    size_t len = 0;
    bytes none = block(0);
    uint32_t status = tdl_translate_lines(handle, lines.at, lines.length, none.at, 0, &len);
    CHECK(lines.length ? status == TDL_SMALL : status == TDL_OK);
    bytes out = block(len);
    size_t again = 0;
    status = tdl_translate_lines(handle, lines.at, lines.length, out.at, out.length, &again);
    CHECK((status == TDL_OK || status == TDL_NO) && again == len);
    fwrite(out.at, 1, len, stdout);
    free(none.at);
    free(out.at);
}

static void answers(char **words) {
    tdl_choice choice = { sizeof choice, (uint8_t)atoi(words[1]), (uint8_t)atoi(words[2]), (uint8_t)atoi(words[3]), (uint8_t)atoi(words[4]), (uint32_t)atoi(words[5]) };
    bytes given[] = { text(words[6]), text(words[7]), file(words[8]), file(words[9]), block(TDL_ROOM), whole(stdin) };
    tdl_handle handle = TDL_CLOSED;
    size_t len = 0;
    uint32_t status = open_by(&handle, choice, given[0], given[1], given[2], given[3], given[4], &len);
    if (status == TDL_TABLES || status == TDL_PREFIXES) {
        CHECK(len <= given[4].length);
        printf("refused %s %.*s\n", status == TDL_TABLES ? "tables" : "prefixes", (int)len, given[4].at);
    } else {
        CHECK(status == TDL_OK);
        if (!strcmp(words[0], "one"))
            answer_each(&handle, given[5]);
        else
            answer_all(&handle, given[5]);
    }
    tdl_close(&handle);
    for (size_t n = 0; n < sizeof given / sizeof *given; n++)
        free(given[n].at);
}

/* calls */

static void try_lengths(tdl_handle *handle, const char *asked_text, uint32_t wanted) {
    bytes asked = text(asked_text), much = block(TDL_ROOM);
    size_t whole_length = 0;
    CHECK(ask(handle, asked, much, &whole_length) == wanted);
    for (size_t room = 0; room < whole_length + 40; room++) {
        bytes out = block(room);
        memset(out.at, 0xA5, room);
        size_t len = 0;
        uint32_t status = ask(handle, asked, out, &len);
        CHECK(len == whole_length);
        CHECK(status == (room < whole_length ? TDL_SMALL : wanted));
        for (size_t n = room < whole_length ? 0 : whole_length; n < room; n++)
            CHECK(out.at[n] == 0xA5);
        CHECK(room < whole_length || !memcmp(out.at, much.at, whole_length));
        free(out.at);
    }
    free(asked.at);
    free(much.at);
}

static void try_line_lengths(tdl_handle *handle) {
    bytes lines = text("3074257BF7194E4000001A85\nzz\r\n\n3034257BF7194E4000001A85"), much = block(TDL_ROOM);
    size_t all = 0;
    CHECK(tdl_translate_lines(handle, lines.at, lines.length, much.at, much.length, &all) == TDL_NO);
    for (size_t room = 0; room < all + 3; room++) {
        bytes out = block(room);
        memset(out.at, 0xA5, room);
        size_t len = 0;
        CHECK(tdl_translate_lines(handle, lines.at, lines.length, out.at, room, &len) == (room < all ? TDL_SMALL : TDL_NO));
        CHECK(len == all);
        for (size_t n = room < all ? 0 : all; n < room; n++)
            CHECK(out.at[n] == 0xA5);
        CHECK(room < all || !memcmp(out.at, much.at, all));
        free(out.at);
    }
    free(lines.at);
    free(much.at);
}

static void try_shut(void) {
    tdl_handle handle = TDL_CLOSED;
    tdl_choice choice = { sizeof choice, TDL_HEX, TDL_LINK, TDL_ANY_FILTER, TDL_ANY_GCP, 0 };
    bytes asked = text(HEX), out = block(64);
    memset(out.at, 0xA5, 64);
    for (int again = 0; again < 2; again++) {
        size_t len = 0;
        CHECK(ask(&handle, asked, out, &len) == TDL_SHUT);
        CHECK(tdl_translate_lines(&handle, asked.at, asked.length, out.at, 64, &len) == TDL_SHUT);
        CHECK(tdl_retarget(&handle, &choice, TDL_NONE, TDL_STEM) == TDL_SHUT);
        CHECK(len == 0);
        uint32_t kind = 1;
        size_t at = 1, character = 1;
        CHECK(tdl_why(&handle, asked.at, asked.length, &kind, &at, &character) == TDL_SHUT);
        CHECK(kind == TDL_NO_REJECTION && at == TDL_NOWHERE && character == TDL_NOWHERE);
        for (size_t n = 0; n < 64; n++)
            CHECK(out.at[n] == 0xA5);
        tdl_close(&handle);
        CHECK(open_plain(&handle, TDL_HEX, TDL_LINK) == TDL_OK);
        CHECK(ask(&handle, asked, out, &len) == TDL_OK && len == strlen(LINK) && !memcmp(out.at, LINK, len));
        tdl_close(&handle);
        memset(out.at, 0xA5, 64);
    }
    free(asked.at);
    free(out.at);
}

/* Numbers out of range, and that the handle is as it was after them. */
static void try_numbers(tdl_handle *handle) {
    bytes asked = text(HEX), out = block(256);
    for (int place = 0; place < 5; place++) {
        const int least[] = { 6, 7, 8, 13, 2 };
        for (int number = least[place]; number < 256; number += number < 20 || number > 250 ? 1 : 50) {
            tdl_choice choice = { sizeof choice, TDL_HEX, TDL_LINK, TDL_ANY_FILTER, TDL_ANY_GCP, 0 };
            uint8_t *numbers[] = { &choice.from, &choice.to, &choice.filter, &choice.gcp };
            size_t len = 1;
            if (place == 2 && number == TDL_ANY_FILTER)
                continue;
            if (place < 4)
                *numbers[place] = (uint8_t)number;
            else
                choice.flags = (uint32_t)number;
            CHECK(tdl_open(handle, &choice, TDL_NONE, TDL_STEM, TDL_NONE, TDL_NONE, out.at, 256, &len) == TDL_ARGUMENT && len == 0);
            CHECK(tdl_retarget(handle, &choice, TDL_NONE, TDL_STEM) == TDL_ARGUMENT);
        }
    }
    const char *stems[] = { "", "x", "ftp://id.gs1.org", "https://", "https://a.example/", "https://a?b", "https://a#b", "https://\x01" };
    for (size_t n = 0; n < sizeof stems / sizeof *stems; n++) {
        tdl_choice choice = { sizeof choice, TDL_HEX, TDL_LINK, TDL_ANY_FILTER, TDL_ANY_GCP, 0 };
        bytes stem = text(stems[n]);
        size_t len = 1;
        CHECK(tdl_open(handle, &choice, TDL_NONE, stem.at, stem.length, TDL_NONE, TDL_NONE, out.at, 256, &len) == TDL_ARGUMENT && len == 0);
        CHECK(tdl_retarget(handle, &choice, TDL_NONE, stem.at, stem.length) == TDL_ARGUMENT);
        free(stem.at);
    }
    size_t len = 0;
    CHECK(ask(handle, asked, out, &len) == TDL_OK && len == strlen(LINK) && !memcmp(out.at, LINK, len));
    free(asked.at);
    free(out.at);
}

/* Documents that are rejected, by buffers of each length around the reason's. */
static void try_documents(tdl_handle *handle) {
    const char *documents[] = { "{}", "{", "\xff", "[]", "{\"version\":2}" };
    for (size_t n = 0; n < sizeof documents / sizeof *documents; n++)
        for (int is_prefixes = 0; is_prefixes < 2; is_prefixes++) {
            tdl_choice choice = { sizeof choice, TDL_HEX, TDL_LINK, TDL_ANY_FILTER, TDL_ANY_GCP, 0 };
            bytes none = block(0), document = text(documents[n]), stem = text("https://id.gs1.org");
            size_t all = 200;
            for (size_t room = 0; room < all + 3; room++) {
                bytes out = block(room);
                memset(out.at, 0xA5, room);
                size_t len = 0;
                uint32_t status = open_by(handle, choice, none, stem, is_prefixes ? none : document, is_prefixes ? document : none, out, &len);
                CHECK(status == (is_prefixes ? TDL_PREFIXES : TDL_TABLES) && len > 0);
                all = len;
                for (size_t at = room < all ? 0 : all; at < room; at++)
                    CHECK(out.at[at] == 0xA5);
                free(out.at);
            }
            free(none.at);
            free(document.at);
            free(stem.at);
        }
}

static void try_retarget(tdl_handle *handle) {
    tdl_choice back = { sizeof back, TDL_LINK, TDL_HEX, 3, 7, 0 }, forth = { sizeof forth, TDL_HEX, TDL_LINK, TDL_ANY_FILTER, TDL_ANY_GCP, 0 };
    bytes hex = text(HEX), link = text(LINK), out = block(256);
    size_t len = 0;
    for (int again = 0; again < 3; again++) {
        CHECK(tdl_retarget(handle, &back, TDL_NONE, TDL_STEM) == TDL_OK);
        CHECK(ask(handle, link, out, &len) == TDL_OK && len == strlen(HEX) && !memcmp(out.at, HEX, len));
        CHECK(ask(handle, hex, out, &len) == TDL_NO);
        CHECK(tdl_retarget(handle, &forth, TDL_NONE, TDL_STEM) == TDL_OK);
        CHECK(ask(handle, hex, out, &len) == TDL_OK && len == strlen(LINK) && !memcmp(out.at, LINK, len));
    }
    free(hex.at);
    free(link.at);
    free(out.at);
}

static void try_share(tdl_handle *handle) {
    tdl_choice back = { sizeof back, TDL_LINK, TDL_HEX, 3, 7, 0 }, wrong = { sizeof wrong, 9, 9, 9, 99, 9 };
    bytes hex = text(HEX), link = text(LINK), out = block(256);
    tdl_handle none = TDL_CLOSED, others[3] = { TDL_CLOSED, TDL_CLOSED, TDL_CLOSED };
    size_t len = 0;
    CHECK(tdl_share(&others[0], &none, &back, TDL_NONE, TDL_STEM) == TDL_SHUT);
    CHECK(tdl_share(&others[0], handle, &wrong, TDL_NONE, TDL_STEM) == TDL_ARGUMENT);
    CHECK(ask(&others[0], link, out, &len) == TDL_SHUT);
    for (int again = 0; again < 2; again++)
        for (int n = 0; n < 3; n++) {
            CHECK(tdl_share(&others[n], n ? &others[n - 1] : handle, &back, TDL_NONE, TDL_STEM) == TDL_OK);
            CHECK(ask(&others[n], link, out, &len) == TDL_OK && len == strlen(HEX) && !memcmp(out.at, HEX, len));
            CHECK(ask(handle, hex, out, &len) == TDL_OK && len == strlen(LINK) && !memcmp(out.at, LINK, len));
        }
    tdl_close(&others[0]);
    for (int n = 1; n < 3; n++) {
        CHECK(ask(&others[n], link, out, &len) == TDL_OK && len == strlen(HEX) && !memcmp(out.at, HEX, len));
        tdl_close(&others[n]);
    }
    free(hex.at);
    free(link.at);
    free(out.at);
}

/* Documents of as many levels as JSON may have here, which take the most stack. */
static void try_deep(tdl_handle *handle) {
    enum { LEVELS = 127 };
    tdl_choice choice = { sizeof choice, TDL_HEX, TDL_LINK, TDL_ANY_FILTER, TDL_ANY_GCP, 0 };
    char document[LEVELS * 6 + 2] = "";
    size_t len;
    for (int n = 0; n < LEVELS; n++)
        strcat(document, "{\"a\":");
    strcat(document, "1");
    for (int n = 0; n < LEVELS; n++)
        strcat(document, "}");
    bytes given = text(document), out = block(256);
    for (int again = 0; again < 2; again++) {
        CHECK(tdl_open(handle, &choice, NULL, 0, TDL_STEM, given.at, given.length, NULL, 0, out.at, out.length, &len) == TDL_TABLES);
        CHECK(tdl_open(handle, &choice, NULL, 0, TDL_STEM, NULL, 0, given.at, given.length, out.at, out.length, &len) == TDL_PREFIXES);
        CHECK(tdl_load_classes(handle, given.at, given.length, out.at, out.length, &len) == TDL_CLASSES);
    }
    free(given.at);
    free(out.at);
}

/* Choices of each size: those options count that end within it. */
static void try_sizes(void) {
    tdl_handle handle = TDL_CLOSED;
    bytes link = text(LINK), out = block(256);
    for (size_t size = 0; size < 40; size++) {
        tdl_choice choice = { size, TDL_LINK, TDL_HEX, 3, 7, TDL_KEYS_ONLY };
        size_t len = 1;
        uint32_t status = tdl_open(&handle, &choice, NULL, 0, TDL_STEM, NULL, 0, NULL, 0, NULL, 0, &len);
        CHECK(status == (size < 10 || size > sizeof choice ? TDL_ARGUMENT : TDL_OK) && len == 0);
        if (status != TDL_OK)
            continue;
        status = ask(&handle, link, out, &len);
        CHECK(status == (size < 12 ? TDL_NO : TDL_OK));
        const char *wanted = size < 12 ? "missing gcp" : HEX;
        CHECK(len == strlen(wanted) && !memcmp(out.at, wanted, len));
    }
    tdl_close(&handle);
    free(link.at);
    free(out.at);
}

/* Null pointers of length 0. */
static void try_nulls(void) {
    tdl_handle handle = TDL_CLOSED, other = TDL_CLOSED;
    tdl_choice choice = { sizeof choice, TDL_PURE, TDL_CANON, TDL_ANY_FILTER, TDL_ANY_GCP, 0 };
    uint8_t out[TDL_ROOM];
    size_t len = 1;
    CHECK(tdl_open(&handle, &choice, NULL, 0, NULL, 0, NULL, 0, NULL, 0, NULL, 0, &len) == TDL_ARGUMENT && len == 0);
    CHECK(tdl_open(&handle, &choice, NULL, 0, TDL_STEM, (const uint8_t *)"{}", 2, NULL, 0, NULL, 0, &len) == TDL_TABLES && len > 0);
    CHECK(tdl_open(&handle, &choice, NULL, 0, TDL_STEM, NULL, 0, NULL, 0, NULL, 0, &len) == TDL_OK && len == 0);
    CHECK(tdl_retarget(&handle, &choice, NULL, 0, NULL, 0) == TDL_ARGUMENT);
    CHECK(tdl_retarget(&handle, &choice, NULL, 0, TDL_STEM) == TDL_OK);
    CHECK(tdl_share(&other, &handle, &choice, NULL, 0, NULL, 0) == TDL_ARGUMENT);
    CHECK(tdl_share(&other, &handle, &choice, NULL, 0, TDL_STEM) == TDL_OK);
    CHECK(tdl_load_classes(&handle, NULL, 0, NULL, 0, &len) == TDL_OK && len == 0);
    uint32_t (*const asked[])(tdl_handle *, const uint8_t *, size_t, uint8_t *, size_t, size_t *) = {
        tdl_translate, tdl_class_canon, tdl_class_uri, tdl_dump_read, tdl_dump_write };
    for (size_t n = 0; n < sizeof asked / sizeof *asked; n++) {
        CHECK(asked[n](&handle, NULL, 0, NULL, 0, &len) == TDL_SMALL && len > 0);
        size_t room = len;
        CHECK(asked[n](&handle, NULL, 0, out, sizeof out, &len) == TDL_NO && len == room);
    }
    uint32_t kind = 0;
    size_t at = 0, character = 0;
    CHECK(tdl_why(&handle, NULL, 0, &kind, &at, &character) == TDL_NO && kind == TDL_READING && at == TDL_NOWHERE && character == TDL_NOWHERE);
    CHECK(tdl_why(&handle, (const uint8_t *)"urn:epc:id:sgtin:0614141.812345.6789", 36, &kind, &at, &character) == TDL_OK && kind == TDL_NO_REJECTION);
    CHECK(tdl_translate_lines(&handle, NULL, 0, NULL, 0, &len) == TDL_OK && len == 0);
    CHECK(tdl_translate_lines(&handle, (const uint8_t *)"x", 1, NULL, 0, &len) == TDL_SMALL && len > 0);
    tdl_close(&other);
    tdl_close(&handle);
}

/* An answer by buffers of each length around its own. */
static void try_answer(uint32_t (*asks)(tdl_handle *, const uint8_t *, size_t, uint8_t *, size_t, size_t *), tdl_handle *handle, const char *given,
                       uint32_t wanted, const char *answer) {
    bytes asked = text(given);
    size_t all = strlen(answer);
    for (size_t room = all > 3 ? all - 3 : 0; room < all + 3; room++) {
        bytes out = block(room);
        memset(out.at, 0xA5, room);
        size_t len = 0;
        CHECK(asks(handle, asked.at, asked.length, out.at, room, &len) == (room < all ? TDL_SMALL : wanted) && len == all);
        CHECK(room < all || !memcmp(out.at, answer, all));
        for (size_t at = room < all ? 0 : all; at < room; at++)
            CHECK(out.at[at] == 0xA5);
        free(out.at);
    }
    free(asked.at);
}

/* Classes and dumps: before and after classes are loaded, through a share and a change of forms, and documents that are rejected. */
static void try_classes(void) {
    static const char URI[] = "urn:epc:class:lgtin:0614141.812345.A", CLASS[] = "https://id.gs1.org/01/80614141123458/10/A";
    static const char DUMP[] = "30003074257BF7194E4000001A85", SHOWN[] = "u0 a00 urn:epc:tag:sgtin-96:3.0614141.812345.6789";
    tdl_handle handle = TDL_CLOSED, other = TDL_CLOSED;
    tdl_choice choice = { sizeof choice, TDL_LINK, TDL_HEX, 3, 7, 0 };
    bytes out = block(256);
    size_t len = 1;
    CHECK(tdl_load_classes(&handle, NULL, 0, out.at, out.length, &len) == TDL_SHUT && len == 0);
    CHECK(open_plain(&handle, TDL_LINK, TDL_CANON) == TDL_OK);
    len = 1;
    CHECK(tdl_class_canon(&handle, (const uint8_t *)URI, strlen(URI), out.at, out.length, &len) == TDL_CLASSES && len == 0);
    len = 1;
    CHECK(tdl_class_uri(&handle, (const uint8_t *)CLASS, strlen(CLASS), out.at, out.length, &len) == TDL_CLASSES && len == 0);
    try_answer(tdl_dump_read, &handle, "30", TDL_NO, "word");
    for (int again = 0; again < 2; again++) {
        CHECK(tdl_load_classes(&handle, NULL, 0, out.at, out.length, &len) == TDL_OK && len == 0);
        CHECK(tdl_load_classes(&handle, (const uint8_t *)"{\"version\":2,\"classes\":[]}", 26, out.at, out.length, &len) == TDL_CLASSES);
        CHECK(len == 7 && !memcmp(out.at, "version", 7));
        try_answer(tdl_class_canon, &handle, URI, TDL_OK, CLASS);
        try_answer(tdl_class_uri, &handle, CLASS, TDL_NO, "missing gcp");
        CHECK(tdl_share(&other, &handle, &choice, NULL, 0, TDL_STEM) == TDL_OK);
        try_answer(tdl_class_uri, &other, CLASS, TDL_OK, URI);
        CHECK(tdl_retarget(&handle, &choice, NULL, 0, TDL_STEM) == TDL_OK);
        try_answer(tdl_class_uri, &handle, CLASS, TDL_OK, URI);
        CHECK(open_plain(&handle, TDL_LINK, TDL_CANON) == TDL_OK);
        CHECK(tdl_class_canon(&handle, (const uint8_t *)URI, strlen(URI), out.at, out.length, &len) == TDL_CLASSES);
        try_answer(tdl_class_canon, &other, URI, TDL_OK, CLASS);
    }
    CHECK(tdl_load_classes(&other, (const uint8_t *)"{\"version\":1,\"classes\":[]}", 26, out.at, out.length, &len) == TDL_OK);
    try_answer(tdl_class_canon, &other, URI, TDL_NO, "reading");
    try_answer(tdl_class_uri, &other, CLASS, TDL_NO, "class");
    try_answer(tdl_dump_read, &other, DUMP, TDL_OK, SHOWN);
    try_answer(tdl_dump_write, &other, SHOWN, TDL_OK, DUMP);
    try_answer(tdl_dump_write, &other, DUMP, TDL_NO, "line");
    tdl_close(&other);
    CHECK(tdl_class_canon(&other, (const uint8_t *)URI, strlen(URI), out.at, out.length, &len) == TDL_SHUT && len == 0);
    tdl_close(&handle);
    free(out.at);
}

/* Bytes of all kinds in each form, by one call and by all. */
static void try_bytes(void) {
    uint64_t seed = 88172645463325252u;
    for (int from = TDL_HEX; from <= TDL_LINK; from++) {
        tdl_handle handle = TDL_CLOSED;
        CHECK(open_plain(&handle, from, TDL_CANON) == TDL_OK);
        for (int round = 0; round < 300; round++) {
            seed ^= seed << 13, seed ^= seed >> 7, seed ^= seed << 17;
            bytes asked = block(round < 20 ? (size_t)round : seed % (round % 50 ? 200 : 5000)), out = block(seed % 3 ? TDL_ROOM : seed % 64);
            for (size_t n = 0; n < asked.length; n++) {
                seed ^= seed << 13, seed ^= seed >> 7, seed ^= seed << 17;
                asked.at[n] = round % 2 ? (uint8_t)(seed >> 20) : (uint8_t)"0123456789ABCDEF./:()%x-urnepcidhttp]"[(seed >> 20) % 37];
            }
            size_t len = 0;
            uint32_t status = ask(&handle, asked, out, &len);
            CHECK(status == (len > out.length ? TDL_SMALL : TDL_NO) || (status == TDL_OK && len <= out.length));
            CHECK(len <= TDL_ROOM);
            status = tdl_translate_lines(&handle, asked.at, asked.length, out.at, out.length, &len);
            CHECK(status <= TDL_SMALL);
            free(asked.at);
            free(out.at);
        }
        tdl_close(&handle);
    }
}

static void calls(void) {
    tdl_handle handle = TDL_CLOSED;
    CHECK(tdl_version_number() == TDL_VERSION_NUMBER);
    try_shut();
    CHECK(open_plain(&handle, TDL_HEX, TDL_LINK) == TDL_OK);
    try_lengths(&handle, HEX, TDL_OK);
    try_lengths(&handle, "3074257BF7194E4000001A8", TDL_NO);
    try_lengths(&handle, "", TDL_NO);
    try_line_lengths(&handle);
    try_numbers(&handle);
    try_documents(&handle);
    try_lengths(&handle, HEX, TDL_OK);
    try_retarget(&handle);
    try_share(&handle);
    try_sizes();
    try_deep(&handle);
    try_nulls();
    try_classes();
    CHECK(open_plain(&handle, TDL_LINK, TDL_CANON) == TDL_OK);
    try_lengths(&handle, "https://shop.example/01/80614141123458/21/%25%26?17=261231", TDL_OK);
    try_bytes();
    tdl_close(&handle);
}

/* faults STEP */

static long denied = -1, requests;

#ifdef WRAPPED
void *__real_malloc(size_t size);
void *__real_realloc(void *at, size_t size);

void *__wrap_malloc(size_t size) { return ++requests == denied ? NULL : __real_malloc(size); }

void *__wrap_realloc(void *at, size_t size) { return ++requests == denied ? NULL : __real_realloc(at, size); }
#endif

static tdl_handle faulted = TDL_CLOSED;
static bytes given_tables, given_prefixes;
static char answer[256];
static size_t answer_len;
static uint8_t answer_out[256];

static uint32_t call_open(void) {
    tdl_choice choice = { sizeof choice, TDL_LINK, TDL_HEX, 3, 7, 0 };
    return tdl_open(&faulted, &choice, TDL_NONE, TDL_STEM, given_tables.at, given_tables.length, given_prefixes.at, given_prefixes.length,
                    answer_out, sizeof answer_out, &answer_len);
}

static uint32_t call_rejected(void) {
    tdl_choice choice = { sizeof choice, TDL_LINK, TDL_HEX, 3, 7, 0 };
    return tdl_open(&faulted, &choice, TDL_NONE, TDL_STEM, (const uint8_t *)"{\"version\":2}", 13, TDL_NONE, answer_out, sizeof answer_out, &answer_len);
}

static uint32_t call_retarget(void) {
    tdl_choice choice = { sizeof choice, TDL_LINK, TDL_HEX, 3, 7, 0 };
    return tdl_retarget(&faulted, &choice, (const uint8_t *)"sgtin-96", 8, TDL_STEM);
}

static uint32_t call_share(void) {
    tdl_choice choice = { sizeof choice, TDL_HEX, TDL_LINK, TDL_ANY_FILTER, TDL_ANY_GCP, 0 };
    tdl_handle other = TDL_CLOSED;
    uint32_t status = tdl_share(&other, &faulted, &choice, (const uint8_t *)"sgtin-96", 8, TDL_STEM);
    tdl_close(&other);
    return status;
}

static uint32_t call_why(void) {
    uint32_t kind;
    size_t at, character;
    return tdl_why(&faulted, (const uint8_t *)"https://id.gs1.org/01/80614141123459", 36, &kind, &at, &character);
}

static uint32_t call_classes(void) {
    return tdl_load_classes(&faulted, NULL, 0, answer_out, sizeof answer_out, &answer_len);
}

static uint32_t call_class_canon(void) {
    return tdl_class_canon(&faulted, (const uint8_t *)"urn:epc:class:lgtin:0614141.812345.A", 36, answer_out, sizeof answer_out, &answer_len);
}

static uint32_t call_class_uri(void) {
    return tdl_class_uri(&faulted, (const uint8_t *)"https://id.gs1.org/01/80614141123458/10/A", 41, answer_out, sizeof answer_out, &answer_len);
}

static uint32_t call_dump_read(void) {
    return tdl_dump_read(&faulted, (const uint8_t *)"30003074257BF7194E4000001A85", 28, answer_out, sizeof answer_out, &answer_len);
}

static uint32_t call_translate(void) {
    return tdl_translate(&faulted, (const uint8_t *)LINK, strlen(LINK), answer_out, sizeof answer_out, &answer_len);
}

static uint32_t call_no(void) {
    return tdl_translate(&faulted, (const uint8_t *)"https://id.gs1.org/01/80614141123459", 36, answer_out, sizeof answer_out, &answer_len);
}

static uint32_t call_lines(void) {
    static const char lines[] = "https://id.gs1.org/01/80614141123458/21/6789\r\nftp://x\n";
    return tdl_translate_lines(&faulted, (const uint8_t *)lines, strlen(lines), answer_out, sizeof answer_out, &answer_len);
}

/* Denies each STEPth request of a call in turn. After each the handle has to answer as before. */
static void deny(const char *name, uint32_t (*call)(void), uint32_t wanted, long step) {
    requests = 0;
    CHECK(call() == wanted);
    long all = requests, tried = 0, memory = 0;
    for (long at = 1; at <= all; at += step, tried++) {
        requests = 0, denied = at;
        uint32_t status = call();
        denied = -1;
        memory += status == TDL_MEMORY;
        CHECK(status == TDL_MEMORY || status == wanted);
        CHECK(call_translate() == TDL_OK && answer_len == strlen(answer) && !memcmp(answer_out, answer, answer_len));
    }
    CHECK(call() == wanted);
    printf("%s: %ld requests, %ld denied, %ld times out of memory\n", name, all, tried, memory);
    fflush(stdout);
}

static void faults(long step) {
    given_tables = block(0), given_prefixes = block(0);
    strcpy(answer, HEX);
    CHECK(call_open() == TDL_OK);
    deny("tdl_translate", call_translate, TDL_OK, 1);
    deny("tdl_translate, rejected", call_no, TDL_NO, 1);
    deny("tdl_translate_lines", call_lines, TDL_NO, 1);
    deny("tdl_retarget", call_retarget, TDL_OK, 1);
    deny("tdl_share", call_share, TDL_OK, 1);
    deny("tdl_why", call_why, TDL_NO, 1);
    deny("tdl_load_classes", call_classes, TDL_OK, 1);
    deny("tdl_class_canon", call_class_canon, TDL_OK, 1);
    deny("tdl_class_uri", call_class_uri, TDL_OK, 1);
    deny("tdl_dump_read", call_dump_read, TDL_OK, 1);
    deny("tdl_open, rejected", call_rejected, TDL_TABLES, 1);
    deny("tdl_open", call_open, TDL_OK, step);
    tdl_close(&faulted);
    free(given_tables.at);
    free(given_prefixes.at);
}

/* threads */

enum { THREADS = 8, EACH = 20000 };
static pthread_mutex_t lock = PTHREAD_MUTEX_INITIALIZER;
static tdl_handle shared = TDL_CLOSED;

enum { OWN, SAME_TABLES, SHARED };
static int how;

static void *work(void *given) {
    tdl_handle *handle = how == SHARED ? &shared : given;
    uint8_t out[64];
    size_t len;
    if (how == OWN)
        CHECK(open_plain(handle, TDL_HEX, TDL_LINK) == TDL_OK);
    for (int n = 0; n < EACH; n++) {
        if (how == SHARED)
            pthread_mutex_lock(&lock);
        CHECK(tdl_translate(handle, (const uint8_t *)HEX, strlen(HEX), out, sizeof out, &len) == TDL_OK);
        CHECK(len == strlen(LINK) && !memcmp(out, LINK, len));
        if (how == SHARED)
            pthread_mutex_unlock(&lock);
    }
    if (how != SHARED)
        tdl_close(handle);
    return NULL;
}

static void threads(void) {
    tdl_choice choice = { sizeof choice, TDL_HEX, TDL_LINK, TDL_ANY_FILTER, TDL_ANY_GCP, 0 };
    CHECK(open_plain(&shared, TDL_HEX, TDL_LINK) == TDL_OK);
    for (how = OWN; how <= SHARED; how++) {
        pthread_t started[THREADS];
        tdl_handle handles[THREADS];
        for (int n = 0; n < THREADS; n++) {
            handles[n] = (tdl_handle)TDL_CLOSED;
            if (how == SAME_TABLES)
                CHECK(tdl_share(&handles[n], &shared, &choice, TDL_NONE, TDL_STEM) == TDL_OK);
        }
        for (int n = 0; n < THREADS; n++)
            CHECK(!pthread_create(&started[n], NULL, work, &handles[n]));
        for (int n = 0; n < THREADS; n++)
            CHECK(!pthread_join(started[n], NULL));
    }
    tdl_close(&shared);
}

/* stack BYTES */

static void *call(void *given) {
    (void)given;
    calls();
    return NULL;
}

static void stack(size_t size) {
    pthread_attr_t of_thread;
    pthread_t started;
    CHECK(!pthread_attr_init(&of_thread) && !pthread_attr_setstacksize(&of_thread, size));
    CHECK(!pthread_create(&started, &of_thread, call, NULL) && !pthread_join(started, NULL));
    pthread_attr_destroy(&of_thread);
}

/* churn COUNT FILE */

static size_t held(void) {
#ifdef __GLIBC__
    struct mallinfo2 found = mallinfo2();
    return found.uordblks + found.hblkhd;
#else
    return 0;
#endif
}

static void churn(long count, const char *name) {
    tdl_choice choice = { sizeof choice, TDL_HEX, TDL_LINK, TDL_ANY_FILTER, TDL_ANY_GCP, 0 };
    bytes tables = file(name), none = block(0), stem = text("https://id.gs1.org"), out = block(256);
    size_t len, before = 0;
    for (long n = 0; n < count; n++) {
        tdl_handle handle = TDL_CLOSED;
        CHECK(open_by(&handle, choice, none, stem, tables, none, out, &len) == TDL_OK);
        /* (every other session is closed by the next one in its handle) */
        if (n % 2)
            CHECK(open_by(&handle, choice, none, stem, tables, none, out, &len) == TDL_OK);
        tdl_close(&handle);
        if (!n)
            before = held();
    }
    size_t more = held() - before;
    CHECK(more == 0);
    printf("%ld sessions\n", count + count / 2);
    free(tables.at);
    free(none.at);
    free(stem.at);
    free(out.at);
}

int main(int count, char **words) {
    const char *action = count > 1 ? words[1] : "";
    if (!strcmp(action, "answers") && count == 12)
        answers(words + 2);
    else if (!strcmp(action, "calls"))
        calls();
    else if (!strcmp(action, "faults"))
        faults(count > 2 ? atol(words[2]) : 1);
    else if (!strcmp(action, "threads"))
        threads();
    else if (!strcmp(action, "stack") && count == 3)
        stack(strtoul(words[2], NULL, 10));
    else if (!strcmp(action, "churn") && count == 4)
        churn(atol(words[2]), words[3]);
    else
        return 2;
    return 0;
}

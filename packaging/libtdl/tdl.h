/* tdl.h: translations of GS1 identities. Link with -ltdl (`pkg-config --cflags --libs tdl`).

   A session has forms, options, tables and company prefix lengths. A handle has a session, or none. Each call gives a status, and never
   ends the program, whatever bytes, lengths and numbers it gets. After TDL_MEMORY the handle is as it was, and works.

       tdl_handle handle = TDL_CLOSED;
       tdl_choice choice = { sizeof choice, TDL_HEX, TDL_LINK, TDL_ANY_FILTER, TDL_ANY_GCP, 0 };
       uint8_t out[TDL_ROOM];
       size_t len;

       if (tdl_open(&handle, &choice, TDL_NONE, TDL_STEM, TDL_NONE, TDL_NONE, out, sizeof out, &len) == TDL_OK)
           if (tdl_translate(&handle, (const uint8_t *)"3074257BF7194E4000001A85", 24, out, sizeof out, &len) == TDL_OK)
               printf("%.*s\n", (int)len, (const char *)out);
       tdl_close(&handle);

   What the caller has to keep, since no call can test it:

   - A pointer leads to as many bytes as its length says. It may be null if its length is 0. Those without a
     length are not null, and lead to one each.
   - No two buffers of a call overlap, except that those that are only read may. `tdl_share(&h, &h, ..)` is forbidden: the handles are two.
   - A handle begins as TDL_CLOSED, is not copied, and is in one call at a time: each thread has its own, or a lock is held. A closed
     handle gives TDL_SHUT. No other library, and no other version of this one, gets the handle.
   - A thread has 256 KiB of stack for a call.
   - The calls allocate by `malloc`, `realloc` and `free`, so none is made from a signal handler. In a forked child of a process with
     threads only handles may be used that no other thread had in a call.

   A program that is compiled by this header runs with each later libtdl.so.1. */
#ifndef TDL_H
#define TDL_H
#include <stddef.h>
#include <stdint.h>
#ifdef __cplusplus
extern "C" {
#endif

/* The version of this header: 10000 * major + 100 * minor + patch. */
#define TDL_VERSION_NUMBER 10000

/* A session, or none. */
typedef struct { void *at; } tdl_handle;
#define TDL_CLOSED { 0 }

/* The forms. Texts may be translated to TDL_CANON, the canonical link, but not from it. */
enum { TDL_HEX, TDL_TAG, TDL_PURE, TDL_RAW, TDL_BRACKETED, TDL_LINK, TDL_CANON };

/* The statuses. */
enum {
    TDL_OK,        /* it is done */
    TDL_NO,        /* the text, or one of the lines, is rejected: the buffer has the reason, or the answers */
    TDL_SMALL,     /* the buffer is too short and stays as it was: *len is the length that is needed */
    TDL_MEMORY,    /* out of memory, or lines of more than 4,294,967,296 bytes */
    TDL_ARGUMENT,  /* a number of the choice is out of range, or a link cannot have the stem */
    TDL_TABLES,    /* the table document is rejected: the buffer has the reason */
    TDL_PREFIXES,  /* the list of company prefix lengths is rejected: the buffer has the reason */
    TDL_SHUT,      /* the handle has no session */
    TDL_CLASSES    /* the class document is rejected: the buffer has the reason; or the session has no classes */
};

/* The kinds of rejections, in the order of docs/MESSAGES.md, which explains each by its printed reason. */
enum {
    TDL_NO_REJECTION,
    TDL_LONG, TDL_ODD, TDL_FULL, TDL_DIGIT, TDL_READING,
    TDL_HTTP, TDL_PATH, TDL_BRACKET, TDL_UNKNOWN, TDL_ESCAPE, TDL_LENGTH, TDL_CHAR, TDL_CHECK, TDL_DATE, TDL_REPEAT, TDL_KEY, TDL_KEYS,
    TDL_KIND, TDL_EXTRA, TDL_MISSING, TDL_OPTION, TDL_HOLD,
    TDL_CLASS,
    TDL_WORD, TDL_EXTENDED, TDL_TOGGLE, TDL_WORDS, TDL_LINE, TDL_TOO_LONG
};

/* No place in a text. */
#define TDL_NOWHERE SIZE_MAX

#define TDL_ANY_FILTER 255
#define TDL_ANY_GCP 0
#define TDL_KEYS_ONLY 1

/* The forms and options of a session. A later version may add options at the end: `size` tells which the caller knows. An option behind
   `size` has its default, which is TDL_ANY_FILTER, TDL_ANY_GCP or 0. A size below 10 or above that of the library's gives TDL_ARGUMENT. */
typedef struct {
    size_t size;     /* sizeof(tdl_choice) */
    uint8_t from;    /* TDL_HEX to TDL_LINK */
    uint8_t to;      /* TDL_HEX to TDL_CANON */
    uint8_t filter;  /* 0 to 7, or TDL_ANY_FILTER */
    uint8_t gcp;     /* the length of the company prefix, 1 to 12, or TDL_ANY_GCP */
    uint32_t flags;  /* TDL_KEYS_ONLY: only keys and their serials are translated; otherwise 0 */
} tdl_choice;

/* Enough room for each answer and reason, so that TDL_SMALL does not come from a call for one text. */
#define TDL_ROOM 8192

/* No bytes, and the stem of links that GS1 has for all: pairs of a pointer and a length. */
#define TDL_NONE (const uint8_t *)"", 0
#define TDL_STEM (const uint8_t *)"https://id.gs1.org", 18

/* Opens a session in the handle. A session that the handle had is closed.

   `encoding` is the name of a tag's encoding, or empty for any. `stem` is that of links, such as TDL_STEM. `tables` is a table document, or
   empty for the built-in tables, and `prefixes` a list of company prefix lengths in JSON, or empty for none. The session keeps nothing of
   the caller's bytes.

   Returns TDL_OK, TDL_ARGUMENT, TDL_TABLES, TDL_PREFIXES or TDL_MEMORY; after another than TDL_OK the handle is as it was. With TDL_TABLES
   and TDL_PREFIXES the buffer gets the reason, as `tdl check` prints it behind the file's word, and *len its length; if that is more than
   the capacity, the buffer stays as it was. Otherwise *len is 0. The capacity may be 0. */
uint32_t tdl_open(tdl_handle *handle, const tdl_choice *choice,
                  const uint8_t *encoding, size_t encoding_len,
                  const uint8_t *stem, size_t stem_len,
                  const uint8_t *tables, size_t tables_len,
                  const uint8_t *prefixes, size_t prefixes_len,
                  uint8_t *out, size_t capacity, size_t *len);

/* Gives the session other forms and options. Its tables, company prefix lengths and classes stay, so it takes no load.

   Returns TDL_OK, TDL_ARGUMENT, TDL_MEMORY or TDL_SHUT; after another than TDL_OK the session is as it was. */
uint32_t tdl_retarget(tdl_handle *handle, const tdl_choice *choice,
                      const uint8_t *encoding, size_t encoding_len,
                      const uint8_t *stem, size_t stem_len);

/* Puts into a handle a session of other forms and options over the tables, company prefix lengths and classes of another handle, which keeps
   its own. It takes no load, and some hundred bytes; the tables go with the last session that has them. A session that the handle had is
   closed. Each handle may then be used by a thread of its own, and be closed in any order. `handle` and `other` differ.

   Returns TDL_OK, TDL_ARGUMENT, TDL_MEMORY, or TDL_SHUT if the other handle has no session; after another than TDL_OK both are as they were. */
uint32_t tdl_share(tdl_handle *handle, tdl_handle *other, const tdl_choice *choice,
                   const uint8_t *encoding, size_t encoding_len,
                   const uint8_t *stem, size_t stem_len);

/* Translates a text. The buffer gets its translation (TDL_OK) or the reason why it has none (TDL_NO), and *len the length; no byte of 0
   ends it. The text may have any bytes.

   Returns TDL_OK, TDL_NO, TDL_SMALL, TDL_MEMORY or TDL_SHUT. */
uint32_t tdl_translate(tdl_handle *handle, const uint8_t *text, size_t text_len,
                       uint8_t *out, size_t capacity, size_t *len);

/* Tells why tdl_translate rejects a text. *kind gets the kind. *at gets the byte of the text that the reason names: the wrong digit, or the
   beginning of the element's AI. *character gets the character of the value, from 0, that TDL_CHAR names. Without a place they get
   TDL_NOWHERE.

   Returns TDL_NO; TDL_OK, with TDL_NO_REJECTION, if the text has a translation; TDL_MEMORY or TDL_SHUT. */
uint32_t tdl_why(tdl_handle *handle, const uint8_t *text, size_t text_len,
                 uint32_t *kind, size_t *at, size_t *character);

/* Translates each line, whose end is a line feed, with or without a carriage return before it. The buffer gets `ok TEXT` or `no REASON` and a line
   feed for each, and *len the length of all.

   Returns TDL_OK, TDL_NO if a line is rejected, TDL_SMALL, TDL_MEMORY or TDL_SHUT. */
uint32_t tdl_translate_lines(tdl_handle *handle, const uint8_t *lines, size_t lines_len,
                             uint8_t *out, size_t capacity, size_t *len);

/* Gives the session the classes of a document, or the built-in ones if it is empty, in the place of those that it has. tdl_retarget keeps
   them, and tdl_share passes them on.

   Returns TDL_OK, TDL_CLASSES, TDL_MEMORY or TDL_SHUT; after another than TDL_OK the session is as it was. With TDL_CLASSES the buffer gets
   the reason as tdl_open puts it. */
uint32_t tdl_load_classes(tdl_handle *handle, const uint8_t *classes, size_t classes_len,
                          uint8_t *out, size_t capacity, size_t *len);

/* Answers a text as the command of its name does: `class canon` a class URI by its canonical link, `class uri` a link by its class URI,
   `dump read` a dump of a tag's EPC memory bank by the line that shows it, and `dump write` such a line by the dump. The session's forms do
   not matter. The buffer gets the answer (TDL_OK) or the reason why it has none (TDL_NO), and *len the length.

   Returns TDL_OK, TDL_NO, TDL_SMALL, TDL_MEMORY or TDL_SHUT. The calls for classes return TDL_CLASSES, with 0 in *len, if the session has
   none. */
uint32_t tdl_class_canon(tdl_handle *handle, const uint8_t *text, size_t text_len,
                         uint8_t *out, size_t capacity, size_t *len);
uint32_t tdl_class_uri(tdl_handle *handle, const uint8_t *text, size_t text_len,
                       uint8_t *out, size_t capacity, size_t *len);
uint32_t tdl_dump_read(tdl_handle *handle, const uint8_t *text, size_t text_len,
                       uint8_t *out, size_t capacity, size_t *len);
uint32_t tdl_dump_write(tdl_handle *handle, const uint8_t *text, size_t text_len,
                        uint8_t *out, size_t capacity, size_t *len);

/* Closes the session of the handle, if it has one. */
void tdl_close(tdl_handle *handle);

/* Returns the version of the library, as TDL_VERSION_NUMBER is that of the header. */
uint32_t tdl_version_number(void);

#ifdef __cplusplus
}
#endif
#endif

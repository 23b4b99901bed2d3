/* The module of Node.js that library.js loads: a class Session over libtdl, by Node-API.
   Build: gcc -shared -fPIC -I/usr/include/node -o tdl.node node.c $(pkg-config --cflags --libs tdl) */
#define NAPI_VERSION 8
#include <node_api.h>
#include <stdio.h>
#include <stdlib.h>
#include <tdl.h>

static napi_value failed(napi_env env, uint32_t status) {
    char text[40];
    snprintf(text, sizeof text, "libtdl: status %u", (unsigned)status);
    napi_throw_error(env, NULL, text);
    return NULL;
}

static void finish(napi_env env, void *handle, void *hint) {
    (void)env, (void)hint;
    tdl_close(handle);
    free(handle);
}

/* new Session(from, to): a session over the built-in tables, for the thread that makes it. */
static napi_value make(napi_env env, napi_callback_info info) {
    napi_value self, given[2];
    size_t count = 2, len;
    uint32_t from = 0, to = 0;
    if (napi_get_cb_info(env, info, &count, given, &self, NULL) != napi_ok || napi_get_value_uint32(env, given[0], &from) != napi_ok ||
        napi_get_value_uint32(env, given[1], &to) != napi_ok)
        return failed(env, TDL_ARGUMENT);
    tdl_choice choice = { sizeof choice, (uint8_t)from, (uint8_t)to, TDL_ANY_FILTER, TDL_ANY_GCP, 0 };
    tdl_handle *handle = calloc(1, sizeof *handle);
    uint32_t status = handle ? tdl_open(handle, &choice, TDL_NONE, TDL_STEM, TDL_NONE, TDL_NONE, NULL, 0, &len) : TDL_MEMORY;
    if (status != TDL_OK) {
        free(handle);
        return failed(env, status);
    }
    if (napi_wrap(env, self, handle, finish, NULL, NULL) != napi_ok) {
        finish(env, handle, NULL);
        return NULL;
    }
    return self;
}

/* session.translate(buffer): `ok` and the translation, or `no` and the reason why there is none. */
static napi_value translate(napi_env env, napi_callback_info info) {
    napi_value self, text, answer;
    size_t count = 1, length, len;
    void *handle, *bytes;
    static _Thread_local uint8_t out[3 + TDL_ROOM];
    if (napi_get_cb_info(env, info, &count, &text, &self, NULL) != napi_ok || napi_unwrap(env, self, &handle) != napi_ok ||
        napi_get_buffer_info(env, text, &bytes, &length) != napi_ok)
        return failed(env, TDL_ARGUMENT);
    /* (an empty buffer is null, which libtdl takes) */
    uint32_t status = tdl_translate(handle, bytes, length, out + 3, TDL_ROOM, &len);
    if (status > TDL_NO)
        return failed(env, status);
    out[0] = status == TDL_OK ? 'o' : 'n', out[1] = status == TDL_OK ? 'k' : 'o', out[2] = ' ';
    return napi_create_string_latin1(env, (const char *)out, 3 + len, &answer) == napi_ok ? answer : NULL;
}

NAPI_MODULE_INIT() {
    napi_property_descriptor method = { "translate", NULL, translate, NULL, NULL, NULL, napi_default_method, NULL };
    napi_value made;
    if (napi_define_class(env, "Session", NAPI_AUTO_LENGTH, make, NULL, 1, &method, &made) != napi_ok ||
        napi_set_named_property(env, exports, "Session", made) != napi_ok)
        return NULL;
    return exports;
}

/* library TEXT..: the canonical links of pure identity URIs. Build: gcc library.c $(pkg-config --cflags --libs tdl) */
#include <stdio.h>
#include <string.h>
#include <tdl.h>

int main(int count, char **words) {
    tdl_choice choice = { sizeof choice, TDL_PURE, TDL_CANON, TDL_ANY_FILTER, TDL_ANY_GCP, 0 };
    tdl_handle handle = TDL_CLOSED;
    uint8_t out[TDL_ROOM];
    size_t len;
    if (tdl_open(&handle, &choice, TDL_NONE, TDL_STEM, TDL_NONE, TDL_NONE, out, sizeof out, &len) != TDL_OK)
        return 1;
    for (int n = 1; n < count; n++) {
        uint32_t status = tdl_translate(&handle, (const uint8_t *)words[n], strlen(words[n]), out, sizeof out, &len);
        if (status <= TDL_NO)
            printf("%s %.*s\n", status == TDL_OK ? "ok" : "no", (int)len, (const char *)out);
    }
    tdl_close(&handle);
    return 0;
}

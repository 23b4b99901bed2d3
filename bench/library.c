/* library COUNT: texts a second by one call each and by one call for all, of the processor, for bench/library. */
#include "tdl.h"
#include <stdio.h>
#include <stdlib.h>
#include <string.h>
#include <time.h>

static double now(void) {
    struct timespec found;
    clock_gettime(CLOCK_PROCESS_CPUTIME_ID, &found);
    return (double)found.tv_sec + (double)found.tv_nsec * 1e-9;
}

static double least(double one, double other) { return other > 0 && other < one ? other : one; }

static void measure(const char *name, tdl_choice choice, const char *text, size_t count) {
    tdl_handle handle = TDL_CLOSED;
    size_t length = strlen(text), len, room = count * 80;
    uint8_t answer[TDL_ROOM], *lines = malloc(count * (length + 1)), *out = malloc(room);
    double one = 1e9, all = 1e9, open = now();
    if (tdl_open(&handle, &choice, TDL_NONE, TDL_STEM, TDL_NONE, TDL_NONE, answer, sizeof answer, &len) != TDL_OK)
        exit(1);
    open = now() - open;
    memset(out, 0, room);
    for (size_t n = 0; n < count; n++) {
        memcpy(lines + n * (length + 1), text, length);
        lines[n * (length + 1) + length] = '\n';
    }
    for (int run = 0; run < 5; run++) {
        double began = now();
        for (size_t n = 0; n < count; n++)
            if (tdl_translate(&handle, (const uint8_t *)text, length, answer, sizeof answer, &len) != TDL_OK)
                exit(1);
        one = least(one, now() - began);
        began = now();
        if (tdl_translate_lines(&handle, lines, count * (length + 1), out, room, &len) != TDL_OK)
            exit(1);
        all = least(all, now() - began);
    }
    printf("| C, %s, `tdl_translate` | %.0f |\n| C, %s, `tdl_translate_lines` | %.0f |\n", name, (double)count / one, name, (double)count / all);
    fprintf(stderr, "tdl_open: %.1f ms\n", open * 1e3);
    tdl_close(&handle);
    free(lines);
    free(out);
}

int main(int count, char **words) {
    size_t texts = count > 1 ? strtoul(words[1], NULL, 10) : 200000;
    measure("hex to link", (tdl_choice){ sizeof(tdl_choice), TDL_HEX, TDL_LINK, TDL_ANY_FILTER, TDL_ANY_GCP, 0 }, "3074257BF7194E4000001A85", texts);
    measure("link to hex", (tdl_choice){ sizeof(tdl_choice), TDL_LINK, TDL_HEX, 3, 7, 0 }, "https://id.gs1.org/01/80614141123458/21/6789", texts);
    return 0;
}

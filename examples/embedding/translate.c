/* translate TEXT..: the canonical links of pure identity URIs, by one run of tdl that is kept: $TDL, or tdl on the PATH.
   All texts are sent at once, and read while they are written, so that no full pipe stops either side.
   Build: gcc -O2 -o translate translate.c */
#define _GNU_SOURCE 1
#include <errno.h>
#include <fcntl.h>
#include <poll.h>
#include <signal.h>
#include <spawn.h>
#include <stdio.h>
#include <stdlib.h>
#include <string.h>
#include <sys/wait.h>
#include <unistd.h>

extern char **environ;

int main(int count, char **texts)
{
    int in[2], out[2], status;
    pid_t pid;
    posix_spawn_file_actions_t actions;
    const char *program = getenv("TDL") ? getenv("TDL") : "tdl";
    char *arguments[] = {"tdl", "canon", "pure", NULL};
    size_t size = 0, sent = 0;
    for (int i = 1; i < count; i++) {
        if (strchr(texts[i], '\n')) return fprintf(stderr, "a text has no line feed\n"), 1;
        size += strlen(texts[i]) + 2;
    }
    char *lines = calloc(size + 1, 1), answers[65536];
    for (int i = 1; i < count; i++) strcat(strcat(lines, texts[i]), "\r\n");
    signal(SIGPIPE, SIG_IGN);
    if (pipe2(in, O_CLOEXEC) || pipe2(out, O_CLOEXEC) || posix_spawn_file_actions_init(&actions)) return 1;
    posix_spawn_file_actions_adddup2(&actions, in[0], 0);
    posix_spawn_file_actions_adddup2(&actions, out[1], 1);
    if (posix_spawnp(&pid, program, &actions, NULL, arguments, environ)) return fprintf(stderr, "%s cannot be run\n", program), 1;
    close(in[0]), close(out[1]);
    fcntl(in[1], F_SETFL, O_NONBLOCK);
    for (;;) {
        if (sent == size && in[1] >= 0) close(in[1]), in[1] = -1;
        struct pollfd ends[] = {{out[0], POLLIN, 0}, {in[1], POLLOUT, 0}};
        if (poll(ends, 2, -1) < 0 && errno != EINTR) return 1;
        if (ends[1].revents) {
            ssize_t n = write(in[1], lines + sent, size - sent);
            if (n < 0 && errno != EAGAIN) sent = size;
            if (n > 0) sent += n;
        }
        if (ends[0].revents) {
            ssize_t n = read(out[0], answers, sizeof answers);
            if (n <= 0) break;
            fwrite(answers, 1, n, stdout);
        }
    }
    waitpid(pid, &status, 0);
    return WIFEXITED(status) && WEXITSTATUS(status) <= 1 ? 0 : 1;
}

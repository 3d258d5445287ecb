/* Runs a program in a terminal of 24 lines and 80 columns, for summed_init.sh: in_terminal SECONDS KEYS PROGRAM [WORD..]. One of KEYS is typed each second,
 * SECONDS after the first output; `~` is Enter, and `.` a second without a key. All output of the program is written to standard output. */
#include <pty.h>
#include <poll.h>
#include <stdio.h>
#include <stdlib.h>
#include <sys/wait.h>
#include <time.h>
#include <unistd.h>

int main(int count, char **words) {
    struct winsize size = {.ws_row = 24, .ws_col = 80};
    const char *keys = count > 3 ? words[2] : "";
    char bytes[4096];
    int terminal, status = 1;
    time_t next = 0;
    pid_t child;
    if (count < 4)
        return 2;
    child = forkpty(&terminal, NULL, NULL, &size);
    if (child == 0) {
        setenv("TERM", "vt100", 1);
        execv(words[3], words + 3);
        _exit(127);
    }
    while (child > 0) {
        struct pollfd waiting = {.fd = terminal, .events = POLLIN};
        ssize_t got = poll(&waiting, 1, 200) > 0 ? read(terminal, bytes, sizeof bytes) : 0;
        if (got < 0)
            break;
        fwrite(bytes, 1, (size_t)got, stdout);
        if (got > 0 && next == 0)
            next = time(NULL) + atoi(words[1]);
        if (*keys != '\0' && next != 0 && time(NULL) >= next) {
            next = time(NULL) + 1;
            if (*keys != '.' && write(terminal, *keys == '~' ? "\r" : keys, 1) != 1)
                break;
            keys++;
        }
    }
    waitpid(child, &status, 0);
    return WIFEXITED(status) ? WEXITSTATUS(status) : 1;
}

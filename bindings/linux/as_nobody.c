/* Runs a program as a user other than root, for boot.sh. The program has the capabilities of these numbers (linux/capability.h), and no other ones.
 *
 * usage: as_nobody [NUMBER..] -- PROGRAM [WORD..] */
#define _GNU_SOURCE
#include <grp.h>
#include <linux/capability.h>
#include <stdio.h>
#include <stdlib.h>
#include <string.h>
#include <sys/prctl.h>
#include <sys/syscall.h>
#include <unistd.h>

#define NOBODY 65534

int main(int count, char **words) {
    struct __user_cap_header_struct head = {.version = _LINUX_CAPABILITY_VERSION_3};
    struct __user_cap_data_struct sets[2] = {{0, 0, 0}, {0, 0, 0}};
    int last = 1;
    for (; last < count && strcmp(words[last], "--") != 0; last++) {
        unsigned number = (unsigned)atoi(words[last]), bit = 1u << number % 32;
        sets[number / 32 % 2].effective |= bit;
        sets[number / 32 % 2].permitted |= bit;
        sets[number / 32 % 2].inheritable |= bit;
    }
    if (last + 1 >= count)
        return 2;
    if (prctl(PR_SET_KEEPCAPS, 1) != 0 || setgroups(0, NULL) != 0 || setresgid(NOBODY, NOBODY, NOBODY) != 0 || setresuid(NOBODY, NOBODY, NOBODY) != 0 ||
        syscall(SYS_capset, &head, sets) != 0) {
        perror("as_nobody");
        return 2;
    }
    for (int i = 1; i < last; i++) {
        if (prctl(PR_CAP_AMBIENT, PR_CAP_AMBIENT_RAISE, atoi(words[i]), 0, 0) != 0) {
            perror("as_nobody");
            return 2;
        }
    }
    execv(words[last + 1], words + last + 1);
    perror(words[last + 1]);
    return 2;
}

/* The files that a program writes: one rule for all of them.
 *
 * - No output is an input of the program or another output, under whatever name.
 * - An existing file is replaced only with --force.
 * - A file receives its name when it is complete. Until then it is NAME.partial in the same folder, or NAME.partial.2 and so on.
 *   A file that readers follow while the program runs has its name from the beginning.
 *
 * Pipes, devices and standard output (-, /dev/stdout) are written directly. */
#ifndef SHARED_OUTPUT_H
#define SHARED_OUTPUT_H

#include <limits.h>
#include <stdbool.h>
#include <stddef.h>
#include <stdio.h>

#ifdef __cplusplus
extern "C" {
#endif

enum file_use {
    FILE_READ,    /* an input */
    FILE_WRITTEN, /* an output */
    FILE_KEPT     /* an output whose existing content the program keeps under another name, or that the program itself wrote before */
};

/* A file of the command line. */
struct file_name {
    const char *name; /* NULL: none; "-": standard input or standard output */
    enum file_use use;
};

/* Checks all names before any file is opened: no output is an input or another output, and no output exists unless `is_forced`.
 * Prints the first error for `program`, and returns false. */
bool check_files(const char *program, const struct file_name *files, size_t count, bool is_forced);

enum output_kind {
    OUTPUT_WHOLE,   /* the name appears when the file is complete */
    OUTPUT_FOLLOWED /* readers follow the file while it is written */
};

struct output {
    FILE *file;             /* NULL if none is open */
    char name[PATH_MAX];
    char partial[PATH_MAX]; /* the name until the file is complete; empty if it is written under its own name */
    bool is_forced;
};

/* Opens a file that check_files accepted (NULL: none). Returns false with errno if that fails. */
bool open_output(struct output *output, const char *name, enum output_kind kind, bool is_forced);

/* Closes the file after everything was written, and gives it its name. Returns false with errno if something was not written or the name exists
 * by now; the incomplete file keeps its other name. */
bool close_output(struct output *output);

#ifdef __cplusplus
}
#endif

#endif

#define _XOPEN_SOURCE 700
#include "output.h"

#include <errno.h>
#include <fcntl.h>
#include <stdlib.h>
#include <string.h>
#include <sys/stat.h>
#include <unistd.h>

#define MOST_PARTIAL 1000 /* the most incomplete files of one name */

/* The file that a name stands for, or the place at which it would be created. */
struct place {
    bool is_there, is_stream, has_folder;
    struct stat file;        /* if it is there */
    struct stat folder;      /* otherwise its folder, and its name in the folder */
    const char *base;
};

static bool is_stream(const char *name) {
    return strcmp(name, "-") == 0 || strcmp(name, "/dev/stdout") == 0 || strcmp(name, "/dev/fd/1") == 0 || strcmp(name, "/proc/self/fd/1") == 0;
}

/* Finds the place of a name. If it has no folder, no file comes there: the program reports it when it opens the file. */
static void find_place(const struct file_name *file, struct place *place) {
    char folder[PATH_MAX];
    const char *slash = strrchr(file->name, '/');
    size_t length = slash != NULL ? (size_t)(slash - file->name) + 1 : 1;
    *place = (struct place){.base = slash != NULL ? slash + 1 : file->name};
    place->is_stream = file->use == FILE_READ ? strcmp(file->name, "-") == 0 : is_stream(file->name);
    if (place->is_stream)
        place->is_there = fstat(file->use == FILE_READ ? 0 : 1, &place->file) == 0;
    else
        place->is_there = stat(file->name, &place->file) == 0;
    if (place->is_there || place->is_stream || length >= sizeof folder)
        return;
    memcpy(folder, slash != NULL ? file->name : ".", length);
    folder[length] = '\0';
    place->has_folder = stat(folder, &place->folder) == 0;
}

static bool is_one_file(const struct stat *one, const struct stat *other) {
    return one->st_dev == other->st_dev && one->st_ino == other->st_ino;
}

/* Returns true if what is written to one place comes into the other: the same file or pipe, or the same name of a new file. Devices such as
 * /dev/null may be named twice. */
static bool is_same_place(const struct place *one, const struct place *other) {
    if (one->is_there != other->is_there)
        return false;
    if (!one->is_there)
        return one->has_folder && other->has_folder && is_one_file(&one->folder, &other->folder) && strcmp(one->base, other->base) == 0;
    return is_one_file(&one->file, &other->file) && !S_ISCHR(one->file.st_mode) && !S_ISSOCK(one->file.st_mode);
}

/* Returns the error of one file beside those before it, or NULL. */
static const char *fault_of(const struct file_name *files, const struct place *places, size_t number, bool is_forced) {
    const struct file_name *file = &files[number];
    struct stat link;
    for (size_t i = 0; i < number; i++) {
        if (files[i].name == NULL || (file->use == FILE_READ && files[i].use == FILE_READ))
            continue;
        bool is_same = is_same_place(&places[i], &places[number]) ||
                       (file->use != FILE_READ && files[i].use != FILE_READ && places[i].is_stream && places[number].is_stream);
        if (is_same)
            return file->use == FILE_READ || files[i].use == FILE_READ ? "this output is also an input" : "two outputs have this name";
    }
    if (file->use != FILE_WRITTEN || is_forced || places[number].is_stream)
        return NULL;
    bool is_dangling = !places[number].is_there && lstat(file->name, &link) == 0;
    return is_dangling || (places[number].is_there && S_ISREG(places[number].file.st_mode)) ? "the file exists; --force replaces it" : NULL;
}

bool check_files(const char *program, const struct file_name *files, size_t count, bool is_forced) {
    struct place *places = calloc(count, sizeof *places);
    const char *fault = places == NULL ? strerror(ENOMEM) : NULL;
    size_t number = 0;
    for (; fault == NULL && number < count; number++) {
        if (files[number].name == NULL)
            continue;
        find_place(&files[number], &places[number]);
        fault = fault_of(files, places, number, is_forced);
        if (fault != NULL)
            fprintf(stderr, "%s: %s: %s\n", program, files[number].name, fault);
    }
    free(places);
    return fault == NULL;
}

/* Opens the file under another name, which no file has. */
static int open_partial(struct output *output) {
    for (int number = 1; number <= MOST_PARTIAL; number++) {
        int length = number == 1 ? snprintf(output->partial, sizeof output->partial, "%s.partial", output->name)
                                 : snprintf(output->partial, sizeof output->partial, "%s.partial.%d", output->name, number);
        errno = ENAMETOOLONG;
        if (length >= (int)sizeof output->partial)
            return -1;
        int file = open(output->partial, O_WRONLY | O_CREAT | O_EXCL | O_CLOEXEC, 0666);
        if (file >= 0 || errno != EEXIST)
            return file;
    }
    return -1;
}

bool open_output(struct output *output, const char *name, enum output_kind kind, bool is_forced) {
    struct stat before;
    *output = (struct output){.is_forced = is_forced};
    if (name == NULL)
        return true;
    errno = ENAMETOOLONG;
    if (strlen(name) >= sizeof output->name)
        return false;
    strcpy(output->name, name);
    if (is_stream(name)) {
        output->file = stdout;
        return true;
    }
    bool is_there = stat(name, &before) == 0, is_regular = !is_there || S_ISREG(before.st_mode);
    int file;
    if (kind == OUTPUT_WHOLE && is_regular)
        file = open_partial(output);
    else
        file = open(name, O_WRONLY | O_CREAT | O_CLOEXEC | (is_regular && !is_forced ? O_EXCL : O_TRUNC), 0666);
    if (file < 0)
        return false;
    if (output->partial[0] != '\0' && is_there && fchmod(file, before.st_mode & 07777) != 0) {
        close(file);
        return false;
    }
    output->file = fdopen(file, "w");
    return output->file != NULL;
}

/* Gives a complete file its name. Without `is_forced` no file is replaced, also none that appeared meanwhile. */
static bool give_name(const struct output *output) {
    struct stat there;
    if (output->is_forced)
        return rename(output->partial, output->name) == 0;
    if (link(output->partial, output->name) == 0)
        return unlink(output->partial) == 0;
    if (errno == EEXIST || lstat(output->name, &there) == 0)
        return false;
    return rename(output->partial, output->name) == 0; /* (a folder without hard links) */
}

bool close_output(struct output *output) {
    FILE *file = output->file;
    output->file = NULL;
    if (file == NULL)
        return true;
    bool is_written = fflush(file) == 0;
    if (is_written && ferror(file)) { /* (a write that failed before) */
        errno = EIO;
        is_written = false;
    }
    if (file == stdout)
        return is_written;
    is_written = is_written && (output->partial[0] == '\0' || fsync(fileno(file)) == 0);
    int fault = errno;
    is_written = fclose(file) == 0 && is_written;
    errno = is_written ? errno : fault;
    return is_written && (output->partial[0] == '\0' || give_name(output));
}

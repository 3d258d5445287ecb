/* Names and labels of queues. */
#include "watch_totals.h"

#include <ctype.h>
#include <dirent.h>
#include <errno.h>
#include <stdlib.h>
#include <string.h>
#include <sys/stat.h>

#define NAMESPACES "/run/netns"
#define ROOT 0xffffffffu /* TC_H_ROOT */
#define MOST_LABELS 16   /* of a queue */

struct namespace_name {
    u32 number;
    char name[64];
};

static struct {
    struct namespace_name *at;
    size_t count;
    u32 own;
} namespaces;

/* Returns the name of a network namespace, as `ip netns` gives it, or NULL. */
static const char *find_namespace(u32 number) {
    for (size_t i = 0; i < namespaces.count; i++) {
        if (namespaces.at[i].number == number)
            return namespaces.at[i].name;
    }
    return NULL;
}

static void read_namespaces(void) {
    struct stat found;
    struct dirent *entry;
    DIR *folder = opendir(NAMESPACES);
    if (namespaces.own == 0 && stat("/proc/self/ns/net", &found) == 0)
        namespaces.own = (u32)found.st_ino;
    free(namespaces.at);
    namespaces.at = NULL;
    namespaces.count = 0;
    while (folder != NULL && (entry = readdir(folder)) != NULL) {
        char path[sizeof NAMESPACES + sizeof entry->d_name];
        snprintf(path, sizeof path, NAMESPACES "/%s", entry->d_name);
        struct namespace_name *more = entry->d_name[0] != '.' && stat(path, &found) == 0 ? realloc(namespaces.at, (namespaces.count + 1) * sizeof *more) : NULL;
        if (more == NULL)
            continue;
        namespaces.at = more;
        more += namespaces.count++;
        more->number = (u32)found.st_ino;
        snprintf(more->name, sizeof more->name, "%.63s", entry->d_name);
    }
    if (folder != NULL)
        closedir(folder);
}

void name_device(const struct sums_queue *queue, char name[NAME_DEVICE]) {
    static u32 unknown; /* a namespace without a name */
    const char *space;
    if (namespaces.own == 0)
        read_namespaces();
    if (queue->netns == namespaces.own || queue->netns == 0) {
        snprintf(name, NAME_DEVICE, "%.15s", queue->device);
        return;
    }
    space = find_namespace(queue->netns);
    if (space == NULL && unknown != queue->netns) {
        read_namespaces();
        space = find_namespace(queue->netns);
        if (space == NULL)
            unknown = queue->netns;
    }
    if (space != NULL)
        snprintf(name, NAME_DEVICE, "%s/%.15s", space, queue->device);
    else
        snprintf(name, NAME_DEVICE, "%u/%.15s", queue->netns, queue->device);
}

void name_class(const struct sums_queue *queue, char name[NAME_CLASS]) {
    if (queue->parent == ROOT)
        snprintf(name, NAME_CLASS, "root");
    else
        snprintf(name, NAME_CLASS, "%x:%x", queue->parent >> 16, queue->parent & 0xffff);
}

/* ---- labels */

struct line {
    char *device, *class_name; /* the beginning of the line, which is one allocation */
    const char *pairs[2 * MOST_LABELS + 1];
};

static struct {
    struct line *at;
    size_t count;
} lines;

static int compare_lines(const void *one, const void *other) {
    const struct line *a = one, *b = other;
    int order = strcmp(a->device, b->device);
    return order != 0 ? order : strcmp(a->class_name, b->class_name);
}

/* Returns true if the text can name a label of Prometheus, other than those of each queue. */
static bool is_label(const char *text) {
    if (!isalpha((unsigned char)*text) || strcmp(text, "link") == 0 || strcmp(text, "queue") == 0 || strcmp(text, "le") == 0)
        return false;
    while (isalnum((unsigned char)*text) || *text == '_')
        text++;
    return *text == '\0';
}

/* Splits a line. Returns what is wrong, or NULL. */
static const char *split(struct line *line, char *text) {
    char *rest = NULL;
    size_t count = 0;
    line->device = strtok_r(text, " \t", &rest);
    line->class_name = strtok_r(NULL, " \t", &rest);
    if (line->class_name == NULL)
        return "a class, or *, is missing";
    for (char *pair; (pair = strtok_r(NULL, " \t", &rest)) != NULL; count++) {
        char *value = strchr(pair, '=');
        if (value == NULL)
            return "a label is NAME=VALUE";
        *value++ = '\0';
        if (!is_label(pair))
            return "a name of a label has letters, digits and _, and is not link, queue or le";
        if (count == MOST_LABELS / 2)
            return "there are more than 8 labels";
        line->pairs[2 * count] = pair;
        line->pairs[2 * count + 1] = value;
    }
    line->pairs[2 * count] = NULL;
    return count == 0 ? "a label NAME=VALUE is missing" : NULL;
}

bool labels_read(const char *file) {
    FILE *in = fopen(file, "r");
    char *text = NULL;
    size_t room = 0, number = 0;
    ssize_t length;
    if (in == NULL) {
        fprintf(stderr, "pie-watch: %s: %s\n", file, strerror(errno));
        return false;
    }
    while ((length = getline(&text, &room, in)) >= 0) {
        number++;
        text[strcspn(text, "\n")] = '\0';
        if (text[strspn(text, " \t")] == '\0' || text[strspn(text, " \t")] == '#')
            continue;
        struct line *more = realloc(lines.at, (lines.count + 1) * sizeof *more);
        char *own = strdup(text);
        if (more == NULL || own == NULL)
            abort();
        lines.at = more;
        const char *fault = split(&more[lines.count], own);
        if (fault != NULL) {
            fprintf(stderr, "pie-watch: %s: line %zu: %s\n", file, number, fault);
            fclose(in);
            return false;
        }
        lines.count++;
    }
    free(text);
    fclose(in);
    qsort(lines.at, lines.count, sizeof *lines.at, compare_lines);
    return true;
}

const char *const *labels_of(const char *device, const char *class_name) {
    static const char *pairs[2 * MOST_LABELS + 1];
    size_t count = 0;
    const char *const classes[] = {class_name, "*"};
    for (size_t i = 0; i < 2 && lines.count != 0; i++) {
        const struct line wanted = {.device = (char *)device, .class_name = (char *)classes[i]};
        const struct line *found = bsearch(&wanted, lines.at, lines.count, sizeof *lines.at, compare_lines);
        for (size_t j = 0; found != NULL && found->pairs[j] != NULL; j += 2) {
            bool is_there = false; /* a class's label comes before the one of its device */
            for (size_t k = 0; k < count; k += 2)
                is_there |= strcmp(pairs[k], found->pairs[j]) == 0;
            if (is_there)
                continue;
            pairs[count++] = found->pairs[j];
            pairs[count++] = found->pairs[j + 1];
        }
    }
    pairs[count] = NULL;
    return pairs;
}

#define _GNU_SOURCE
#include "watch_top.h"

#include "watch_load.h"

#ifdef HAS_NCURSES

#include "watch_drops.h"
#include "watch_serve.h"

#include <errno.h>
#include <inttypes.h>
#include <locale.h>
#include <ncurses.h>
#include <stdlib.h>
#include <string.h>
#include <time.h>
#include <unistd.h>

#define PROGRAM "pie-watch"
#define PERIOD 1000000000ull /* ns between readings */
#define TURN 100             /* ms that the page waits for a key */
#define FIRST_ROW 3          /* of the screen with queues */
#define ESCAPE 27
#define MOST_FILTER 40

/* The last events of a queue. */
struct recent {
    u32 count; /* of seen events. The last ones, of SUMS_PACKET bytes each, are in `events`, the newest at (count - 1) % SUMS_RECENT */
    unsigned char *events;
};

/* A queue on the page: its last reading, and its numbers for a second since the reading before. */
struct shown {
    const struct sums_queue *queue;
    double wait; /* ms, mean of the departures since */
    double bits, arrived, dropped, marked;
};

enum order { BY_WAIT, BY_DROPS, BY_PROBABILITY, BY_NAME };

static const char *const order_names[] = {"wait", "drops", "probability", "name"};

struct page {
    struct totals *totals;
    struct snapshot now, before;
    struct shown *shown;
    size_t count, selected, first; /* shown queues; the selected one and the first on the screen */
    u32 selected_number;
    enum order order;
    char filter[MOST_FILTER + 1];
    bool is_filtering, is_detail, is_nobody;
    struct recent *recents; /* by the numbers of queues */
    size_t recents_count;
    u64 lost;
};

/* ---- numbers */

/* Returns the queue of this number in a reading, or NULL. */
static const struct sums_queue *find_number(const struct snapshot *snapshot, u32 number) {
    size_t first = 0, end = snapshot->count;
    while (first < end) {
        size_t middle = (first + end) / 2;
        if (snapshot->rows[middle].number < number)
            first = middle + 1;
        else
            end = middle;
    }
    return first < snapshot->count && snapshot->rows[first].number == number ? &snapshot->rows[first] : NULL;
}

static struct shown show(const struct page *page, const struct sums_queue *queue) {
    static const struct sums_queue none;
    const struct sums_queue *before = find_number(&page->before, queue->number);
    double seconds = (double)(page->now.ns - page->before.ns) / 1e9;
    struct shown shown = {.queue = queue};
    if (before == NULL && page->before.ns == 0)
        return shown;
    if (before == NULL)
        before = &none;
    u64 departed = queue->counts.departed - before->counts.departed;
    shown.wait = departed == 0 ? 0 : sums_milliseconds(queue->counts.waited - before->counts.waited) / (double)departed;
    shown.bits = (double)(queue->counts.departed_bytes - before->counts.departed_bytes) * 8 / seconds;
    shown.arrived = (double)(queue->counts.arrived - before->counts.arrived) / seconds;
    shown.dropped = (double)(queue->counts.early + queue->counts.over - before->counts.early - before->counts.over) / seconds;
    shown.marked = (double)(queue->counts.marked - before->counts.marked) / seconds;
    return shown;
}

static enum order sorted_by;

static double rank(const struct shown *shown) {
    return sorted_by == BY_WAIT ? shown->wait : sorted_by == BY_DROPS ? shown->dropped : sorted_by == BY_PROBABILITY ? (double)shown->queue->probability : 0;
}

static int compare_shown(const void *one, const void *other) {
    const struct shown *a = one, *b = other;
    double first = rank(a), second = rank(b);
    int order;
    if (first != second)
        return first < second ? 1 : -1;
    order = strcmp(a->queue->device, b->queue->device);
    if (order != 0)
        return order;
    if (a->queue->parent != b->queue->parent)
        return a->queue->parent < b->queue->parent ? -1 : 1;
    return (a->queue->number > b->queue->number) - (a->queue->number < b->queue->number);
}

/* Chooses and sorts the queues of the page. The selected queue stays selected. */
static void arrange(struct page *page) {
    struct shown *shown = realloc(page->shown, (page->now.count + 1) * sizeof *shown);
    if (shown == NULL)
        abort();
    page->shown = shown;
    page->count = 0;
    for (size_t i = 0; i < page->now.count; i++) {
        if (queue_matches(&page->now.rows[i], page->filter))
            shown[page->count++] = show(page, &page->now.rows[i]);
    }
    sorted_by = page->order;
    qsort(shown, page->count, sizeof *shown, compare_shown);
    for (size_t i = 0; i < page->count; i++) {
        if (shown[i].queue->number == page->selected_number)
            page->selected = i;
    }
    if (page->selected >= page->count)
        page->selected = page->count == 0 ? 0 : page->count - 1;
}

static bool read_queues(struct page *page) {
    struct snapshot before = page->before;
    page->before = page->now;
    page->now = before;
    if (!totals_read(page->totals, &page->now))
        return false;
    arrange(page);
    return true;
}

/* ---- events */

static void take(void *user, const struct sums_event *event) {
    struct page *page = user;
    struct recent *recent;
    if (event->type != SUMS_DROPPED && event->type != SUMS_MARKED)
        return;
    if (event->number >= page->recents_count) {
        size_t count = event->number + event->number / 2 + 64;
        recent = realloc(page->recents, count * sizeof *recent);
        if (recent == NULL)
            return;
        memset(recent + page->recents_count, 0, (count - page->recents_count) * sizeof *recent);
        page->recents = recent;
        page->recents_count = count;
    }
    recent = &page->recents[event->number];
    if (recent->events == NULL)
        recent->events = calloc(SUMS_RECENT, SUMS_PACKET);
    if (recent->events != NULL)
        memcpy(recent->events + recent->count++ % SUMS_RECENT * SUMS_PACKET, event, SUMS_PACKET);
}

/* ---- the screen */

/* Writes a rate with a unit into 7 columns. */
static const char *rate(double number, char text[16]) {
    static const char units[] = " kMGT";
    size_t unit = 0;
    while (number >= 999.5 && units[unit + 1] != '\0') {
        number /= 1000;
        unit++;
    }
    snprintf(text, 16, "%.*f%.*s", number < 9.995 && number > 0 ? 2 : number < 99.95 && number > 0 ? 1 : 0, number, unit != 0, &units[unit]);
    return text;
}

static void line(int row, int attributes, const char *format, ...) __attribute__((format(printf, 3, 4)));

/* Writes a line as wide as the screen. */
static void line(int row, int attributes, const char *format, ...) {
    char text[512];
    va_list arguments;
    int width = COLS < (int)sizeof text - 1 ? COLS : (int)sizeof text - 1;
    va_start(arguments, format);
    vsnprintf(text, sizeof text, format, arguments);
    va_end(arguments);
    attrset(attributes);
    mvprintw(row, 0, "%-*.*s", width, width, text);
    attrset(A_NORMAL);
}

static void draw_head(const struct page *page) {
    struct shown all = {0};
    char bits[16], arrived[16], dropped[16], marked[16], filter[MOST_FILTER + 16] = "";
    for (size_t i = 0; i < page->count; i++) {
        all.bits += page->shown[i].bits;
        all.arrived += page->shown[i].arrived;
        all.dropped += page->shown[i].dropped;
        all.marked += page->shown[i].marked;
    }
    line(0, A_NORMAL, "%zu of %zu queues: %sbit/s, %s arrived/s, %s dropped/s, %s marked/s", page->count, page->now.count, rate(all.bits, bits),
         rate(all.arrived, arrived), rate(all.dropped, dropped), rate(all.marked, marked));
    if (page->filter[0] != '\0' || page->is_filtering)
        snprintf(filter, sizeof filter, ", filter: %s%s", page->filter, page->is_filtering ? "_" : "");
    line(1, A_NORMAL, "by %s%s%s", order_names[page->order], filter, page->now.missed != 0 ? "; queues are missing" : page->now.lost != 0 ? "; drops are missing" : "");
    line(2, A_REVERSE, "%-16s %-8s %-6s %7s %7s %7s %7s %6s %6s", "DEVICE", "CLASS", "KIND", "BIT/S", "WAIT ms", "LONGEST", "PROB %", "DROP/S", "MARK/S");
}

static void draw_queues(struct page *page) {
    int rows = LINES - FIRST_ROW - 1;
    draw_head(page);
    if (page->selected < page->first)
        page->first = page->selected;
    if (rows > 0 && page->selected >= page->first + (size_t)rows)
        page->first = page->selected - (size_t)rows + 1;
    for (int i = 0; i < rows; i++) {
        size_t at = page->first + (size_t)i;
        char device[NAME_DEVICE], class_name[NAME_CLASS], bits[16], dropped[16], marked[16];
        if (at >= page->count) {
            line(FIRST_ROW + i, A_NORMAL, "%s", i == 0 && page->now.count == 0 ? "no queue of pie or fq_pie (tc qdisc add dev DEVICE root pie)" : i == 0 ? "no queue has this text" : "");
            continue;
        }
        const struct shown *shown = &page->shown[at];
        name_device(shown->queue, device);
        name_class(shown->queue, class_name);
        const char *const *labels = labels_of(device, class_name);
        line(FIRST_ROW + i, at == page->selected ? A_REVERSE : A_NORMAL, "%-16.16s %-8.8s %-6s %7s %7.2f %7.2f %7.3f %6s %6s %s", device, class_name,
             shown->queue->kind == WATCH_PIE ? "pie" : "fq_pie", rate(shown->bits, bits), shown->wait, sums_milliseconds(shown->queue->longest),
             sums_percent(shown->queue->probability), rate(shown->dropped, dropped), rate(shown->marked, marked), labels[0] != NULL ? labels[1] : "");
    }
    line(LINES - 1, A_DIM, "w d p n: by wait, drops, probability, name   /: filter   Enter: last drops   q: quit");
}

/* Draws a queue and its last drops and marks, the newest first. */
static void draw_detail(const struct page *page) {
    const struct sums_queue *queue = page->selected < page->count ? page->shown[page->selected].queue : NULL;
    char device[NAME_DEVICE], class_name[NAME_CLASS], cause[64], addresses[160], labels[256] = "";
    int row = 0;
    if (queue == NULL || queue->number != page->selected_number) {
        line(row++, A_NORMAL, "the queue was removed");
        queue = NULL;
    } else {
        name_device(queue, device);
        name_class(queue, class_name);
        for (const char *const *pair = labels_of(device, class_name); *pair != NULL && strlen(labels) + strlen(pair[0]) + strlen(pair[1]) + 4 < sizeof labels; pair += 2)
            sprintf(labels + strlen(labels), ", %s=%s", pair[0], pair[1]);
        line(row++, A_BOLD, "%s %s: %s %x:%s", device, class_name, queue->kind == WATCH_PIE ? "pie" : "fq_pie", queue->handle >> 16, labels);
        line(row++, A_NORMAL, "%u of %u packets, %u bytes, delay %.1f ms (target %.1f), probability %.3f%%", queue->packets, queue->limit, queue->bytes,
             sums_milliseconds(queue->delay), sums_milliseconds(queue->target), sums_percent(queue->probability));
        line(row++, A_NORMAL, "%" PRIu64 " arrived, %" PRIu64 " dropped early, %" PRIu64 " by the limit, %" PRIu64 " marked, %" PRIu64 " departed", (uint64_t)queue->counts.arrived,
             (uint64_t)queue->counts.early, (uint64_t)queue->counts.over, (uint64_t)queue->counts.marked, (uint64_t)queue->counts.departed);
    }
    line(row++, A_REVERSE, "%9s  %-34s %6s %-4s %s", "AGO s", "CAUSE", "BYTES", "ECN", "PACKET");
    const struct recent *recent = queue != NULL && queue->number < page->recents_count ? &page->recents[queue->number] : NULL;
    for (u32 i = 1; recent != NULL && i <= recent->count && i <= SUMS_RECENT && row < LINES - 1; i++) {
        const struct sums_event *event = (const struct sums_event *)(recent->events + (recent->count - i) % SUMS_RECENT * SUMS_PACKET);
        line(row++, A_NORMAL, "%9.3f  %-34.34s %6u %-4s %s", (double)(long long)(page->now.ns - event->ns) / 1e9, drops_cause(event, cause, sizeof cause), event->packet.size,
             drops_ecn(event), drops_addresses(event, addresses, sizeof addresses));
    }
    if (recent == NULL || recent->count == 0)
        line(row++, A_NORMAL, "no packet was dropped or marked since the page began");
    while (row < LINES - 1)
        line(row++, A_NORMAL, "%s", "");
    line(LINES - 1, A_DIM, "Esc: all queues   q: quit");
}

static void draw(struct page *page) {
    if (page->is_detail)
        draw_detail(page);
    else
        draw_queues(page);
    refresh();
}

/* ---- keys */

static void select_queue(struct page *page, size_t at) {
    page->selected = at < page->count ? at : page->count == 0 ? 0 : page->count - 1;
    if (page->count != 0)
        page->selected_number = page->shown[page->selected].queue->number;
}

/* Takes a key of the filter. */
static void edit_filter(struct page *page, int key) {
    size_t length = strlen(page->filter);
    if (key == '\n' || key == KEY_ENTER) {
        page->is_filtering = false;
    } else if (key == ESCAPE) {
        page->is_filtering = false;
        page->filter[0] = '\0';
    } else if ((key == KEY_BACKSPACE || key == 127 || key == '\b') && length > 0) {
        page->filter[length - 1] = '\0';
    } else if (key >= ' ' && key < 127 && length < MOST_FILTER) {
        page->filter[length] = (char)key;
        page->filter[length + 1] = '\0';
    }
    arrange(page);
    select_queue(page, 0);
}

static void sort_by(struct page *page, enum order order) {
    page->order = order;
    page->selected_number = UINT32_MAX;
    arrange(page);
    select_queue(page, 0);
}

/* Takes a key. Returns false if it ends the page. */
static bool press(struct page *page, int key) {
    size_t rows = LINES > FIRST_ROW + 1 ? (size_t)(LINES - FIRST_ROW - 1) : 1;
    if (page->is_filtering) {
        edit_filter(page, key);
        return true;
    }
    switch (key) {
    case 'q':
        return false;
    case ESCAPE:
        if (!page->is_detail)
            page->filter[0] = '\0';
        page->is_detail = false;
        arrange(page);
        break;
    case '\n':
    case KEY_ENTER:
        select_queue(page, page->selected);
        page->is_detail = page->count != 0;
        break;
    case '/':
        page->is_filtering = !page->is_detail;
        break;
    case 'w':
        sort_by(page, BY_WAIT);
        break;
    case 'd':
        sort_by(page, BY_DROPS);
        break;
    case 'p':
        sort_by(page, BY_PROBABILITY);
        break;
    case 'n':
        sort_by(page, BY_NAME);
        break;
    case KEY_UP:
    case 'k':
        select_queue(page, page->selected == 0 ? 0 : page->selected - 1);
        break;
    case KEY_DOWN:
    case 'j':
        select_queue(page, page->selected + 1);
        break;
    case KEY_PPAGE:
        select_queue(page, page->selected < rows ? 0 : page->selected - rows);
        break;
    case KEY_NPAGE:
        select_queue(page, page->selected + rows);
        break;
    case KEY_HOME:
        select_queue(page, 0);
        break;
    case KEY_END:
        select_queue(page, page->count);
        break;
    }
    return true;
}

static u64 nanoseconds(void) {
    struct timespec time;
    clock_gettime(CLOCK_MONOTONIC, &time);
    return (u64)time.tv_sec * 1000000000u + (u64)time.tv_nsec;
}

/* Gives the privileges up when the programs for both kinds of queues are there. Returns false with errno if that fails. */
static bool give_up(struct page *page) {
    if (page->is_nobody || !totals_later(page->totals))
        return true;
    page->is_nobody = true;
    return watch_become_nobody();
}

static int run(struct page *page, const volatile sig_atomic_t *is_ended) {
    bool is_running = read_queues(page);
    int fault = is_running ? 0 : errno;
    while (is_running && !*is_ended) {
        int key;
        draw(page);
        key = getch();
        totals_events(page->totals, take, page);
        if (key != ERR)
            is_running = press(page, key);
        if (nanoseconds() - page->now.ns >= PERIOD && (!give_up(page) || !read_queues(page))) {
            fault = errno;
            break;
        }
    }
    return fault;
}

int top(const struct totals_options *options, const char *labels, const volatile sig_atomic_t *is_ended) {
    struct page page = {.selected_number = UINT32_MAX};
    int fault;
    if (labels != NULL && !labels_read(labels))
        return 1;
    if (!isatty(STDIN_FILENO) || !isatty(STDOUT_FILENO)) {
        fprintf(stderr, PROGRAM ": top needs a terminal\n");
        return 1;
    }
    page.totals = totals_open(options, is_ended);
    if (page.totals == NULL)
        return 1;
    if (!give_up(&page)) {
        fprintf(stderr, PROGRAM ": the privileges cannot be given up: %s\n", strerror(errno));
        return 1;
    }
    setlocale(LC_ALL, "");
    set_escdelay(50);
    initscr();
    cbreak();
    noecho();
    curs_set(0);
    keypad(stdscr, TRUE);
    timeout(TURN);
    fault = run(&page, is_ended);
    endwin();
    if (fault != 0)
        fprintf(stderr, PROGRAM ": the sums cannot be read: %s\n", strerror(fault));
    totals_close(page.totals);
    return fault != 0;
}

#else

int top(const struct totals_options *options, const char *labels, const volatile sig_atomic_t *is_ended) {
    (void)options;
    (void)labels;
    (void)is_ended;
    fprintf(stderr, "pie-watch: top was built without ncurses (libncurses-dev of Debian)\n");
    return 1;
}

#endif

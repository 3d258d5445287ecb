#define _GNU_SOURCE
#include "watch_serve.h"

#include "watch_load.h"

#ifdef HAS_MICROHTTPD

#include <arpa/inet.h>
#include <errno.h>
#include <microhttpd.h>
#include <netdb.h>
#include <poll.h>
#include <pthread.h>
#include <stdlib.h>
#include <string.h>
#include <sys/wait.h>
#include <time.h>
#include <unistd.h>

#define PROGRAM "pie-watch"
#define MOST_CONNECTIONS 64
#define PATIENCE 10          /* s until a silent connection is closed */
#define FRESH 500000000ull   /* ns that a reading serves */
#define MOST_AGE 60          /* s between readings, so that the kernel's counters of 32 bits do not pass their end unseen */

struct server {
    struct totals *totals;
    const struct serve_options *options;
    struct snapshot snapshot;
    pthread_mutex_t lock;
    u64 failed; /* readings since the last good one */
};

static const char page[] = "<!doctype html><title>pie-watch</title><h1>pie-watch</h1><p><a href=\"/metrics\">metrics</a>, <a href=\"/health\">health</a>, "
                           "<a href=\"/queues\">queues</a> (JSON): ?sort=drops, wait, longest, probability or name; &amp;most=N; &amp;match=TEXT</p>\n";

static u64 nanoseconds(void) {
    struct timespec time;
    clock_gettime(CLOCK_MONOTONIC, &time);
    return (u64)time.tv_sec * 1000000000u + (u64)time.tv_nsec;
}

/* Reads the queues if the last reading is older than `age` ns. The caller has the lock. */
static bool refresh(struct server *server, u64 age) {
    if (server->failed == 0 && server->snapshot.ns != 0 && nanoseconds() - server->snapshot.ns < age)
        return true;
    server->failed = totals_read(server->totals, &server->snapshot) ? 0 : server->failed + 1;
    return server->failed == 0;
}

static enum MHD_Result answer(struct MHD_Connection *connection, unsigned status, const char *type, char *text, enum MHD_ResponseMemoryMode mode) {
    struct MHD_Response *response = MHD_create_response_from_buffer(strlen(text), text, mode);
    enum MHD_Result result;
    if (response == NULL)
        return MHD_NO;
    MHD_add_response_header(response, "Content-Type", type);
    MHD_add_response_header(response, "X-Content-Type-Options", "nosniff");
    result = MHD_queue_response(connection, status, response);
    MHD_destroy_response(response);
    return result;
}

/* Returns the answer to a path, and its status and type. */
static char *answer_to(struct server *server, struct MHD_Connection *connection, const char *path, unsigned *status, const char **type) {
    const char *sort, *match, *most;
    char *rest = (char *)"";
    u64 number = SERVE_MOST;
    bool is_read = refresh(server, FRESH);
    *type = "application/json";
    *status = is_read ? MHD_HTTP_OK : MHD_HTTP_SERVICE_UNAVAILABLE;
    if (strcmp(path, "/health") == 0)
        return serve_health(&server->snapshot, server->failed);
    if (!is_read)
        return strdup("{\"error\":\"the sums cannot be read\"}\n");
    if (strcmp(path, "/metrics") == 0) {
        *type = "text/plain; version=0.0.4; charset=utf-8";
        return serve_metrics(&server->snapshot, server->options->most);
    }
    sort = MHD_lookup_connection_value(connection, MHD_GET_ARGUMENT_KIND, "sort");
    match = MHD_lookup_connection_value(connection, MHD_GET_ARGUMENT_KIND, "match");
    most = MHD_lookup_connection_value(connection, MHD_GET_ARGUMENT_KIND, "most");
    if (most != NULL)
        number = strtoull(most, &rest, 10);
    char *text = *rest == '\0' && number != 0 ? serve_queues(&server->snapshot, sort != NULL ? sort : "drops", match, number) : NULL;
    if (text != NULL)
        return text;
    *status = MHD_HTTP_BAD_REQUEST;
    return strdup("{\"error\":\"sort is drops, wait, longest, probability or name; most is a number from 1 on\"}\n");
}

static enum MHD_Result take_request(void *user, struct MHD_Connection *connection, const char *path, const char *method, const char *version, const char *data,
                                    size_t *bytes, void **own) {
    struct server *server = user;
    unsigned status;
    const char *type;
    char *text;
    (void)version;
    (void)data;
    (void)bytes;
    (void)own;
    if (strcmp(method, "GET") != 0 && strcmp(method, "HEAD") != 0)
        return answer(connection, MHD_HTTP_METHOD_NOT_ALLOWED, "text/plain", (char *)"GET\n", MHD_RESPMEM_PERSISTENT);
    if (strcmp(path, "/") == 0)
        return answer(connection, MHD_HTTP_OK, "text/html", (char *)page, MHD_RESPMEM_PERSISTENT);
    if (strcmp(path, "/metrics") != 0 && strcmp(path, "/health") != 0 && strcmp(path, "/queues") != 0)
        return answer(connection, MHD_HTTP_NOT_FOUND, "text/plain", (char *)"/metrics, /health, /queues\n", MHD_RESPMEM_PERSISTENT);
    pthread_mutex_lock(&server->lock);
    text = answer_to(server, connection, path, &status, &type);
    pthread_mutex_unlock(&server->lock);
    return text != NULL ? answer(connection, status, type, text, MHD_RESPMEM_MUST_FREE) : MHD_NO;
}

/* Reads [ADDRESS]:PORT, and finds its socket address. Returns NULL after a message. */
static struct addrinfo *find_address(const char *text) {
    static const struct addrinfo wanted = {.ai_flags = AI_NUMERICHOST | AI_NUMERICSERV | AI_PASSIVE, .ai_socktype = SOCK_STREAM};
    char host[64] = "127.0.0.1";
    const char *colon = strrchr(text, ':');
    struct addrinfo *found = NULL;
    size_t length = colon != NULL ? (size_t)(colon - text) : 0;
    if (length != 0 && length < sizeof host) {
        bool is_6 = text[0] == '[' && text[length - 1] == ']';
        snprintf(host, sizeof host, "%.*s", (int)(length - 2 * is_6), text + is_6);
    }
    if (colon == NULL || length >= sizeof host || colon[1] < '1' || colon[1] > '9' || getaddrinfo(host, colon + 1, &wanted, &found) != 0) {
        fprintf(stderr, PROGRAM ": this is no address and port, such as :9464 or 192.0.2.1:9464: %s\n", text);
        return NULL;
    }
    return found;
}

/* Serves in a process without privileges, until the other process closes its end of the pipe: without CAP_KILL it can send no signal. */
static int serve_here(struct server *server, const struct addrinfo *address, int pipe) {
    struct pollfd other = {.fd = pipe, .events = POLLIN};
    if (!watch_become_nobody()) {
        fprintf(stderr, PROGRAM ": the privileges cannot be given up: %s\n", strerror(errno));
        return 1;
    }
    struct MHD_Daemon *daemon =
        MHD_start_daemon(MHD_USE_INTERNAL_POLLING_THREAD | (address->ai_family == AF_INET6 ? MHD_USE_IPv6 : 0), 0, NULL, NULL, take_request, server,
                         MHD_OPTION_SOCK_ADDR, address->ai_addr, MHD_OPTION_CONNECTION_LIMIT, MOST_CONNECTIONS, MHD_OPTION_CONNECTION_TIMEOUT, PATIENCE, MHD_OPTION_END);
    if (daemon == NULL) {
        fprintf(stderr, PROGRAM ": %s: %s\n", server->options->address, strerror(errno));
        return 1;
    }
    fprintf(stderr, PROGRAM ": serving http://%s%s/metrics\n", server->options->address[0] == ':' ? "127.0.0.1" : "", server->options->address);
    while (poll(&other, 1, 1000) <= 0) {
        pthread_mutex_lock(&server->lock);
        refresh(server, MOST_AGE * 1000000000ull);
        pthread_mutex_unlock(&server->lock);
    }
    MHD_stop_daemon(daemon);
    return 0;
}

int serve(const struct totals_options *options, const struct serve_options *serving, const volatile sig_atomic_t *is_ended) {
    struct server server = {.options = serving, .lock = PTHREAD_MUTEX_INITIALIZER};
    struct addrinfo *address = find_address(serving->address);
    bool has_all, had_all = false;
    int status = 1, ends[2];
    pid_t child;
    if (address == NULL || (serving->labels != NULL && !labels_read(serving->labels)))
        return 1;
    server.totals = totals_open(options, is_ended);
    if (server.totals == NULL)
        return 1;
    child = pipe(ends) == 0 ? fork() : -1;
    if (child == 0) {
        close(ends[1]);
        _exit(serve_here(&server, address, ends[0]));
    }
    /* this process loads the programs for fq_pie if its module is loaded later, for which the kernel wants CAP_SYS_ADMIN */
    if (!watch_keep_bpf(true))
        fprintf(stderr, PROGRAM ": capabilities cannot be given up: %s\n", strerror(errno));
    while (child > 0 && waitpid(child, &status, WNOHANG) == 0) {
        has_all = totals_later(server.totals);
        if (has_all != had_all && !watch_keep_bpf(false))
            fprintf(stderr, PROGRAM ": capabilities cannot be given up: %s\n", strerror(errno));
        had_all = has_all;
        if (*is_ended && ends[1] >= 0) {
            close(ends[1]);
            ends[1] = -1;
        }
        nanosleep(&(struct timespec){.tv_nsec = 500000000}, NULL);
    }
    freeaddrinfo(address);
    totals_close(server.totals);
    return child > 0 && WIFEXITED(status) ? WEXITSTATUS(status) : 1;
}

#else

int serve(const struct totals_options *options, const struct serve_options *serving, const volatile sig_atomic_t *is_ended) {
    (void)options;
    (void)serving;
    (void)is_ended;
    fprintf(stderr, "pie-watch: serve was built without libmicrohttpd (libmicrohttpd-dev of Debian)\n");
    return 1;
}

#endif

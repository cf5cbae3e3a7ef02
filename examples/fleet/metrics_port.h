// The counts on a port of 127.0.0.1, by HTTP, by libmicrohttpd: it has slow clients, many of them, and odd requests in
// hand. A program that is compiled without it refuses `--metrics-port`.
#ifndef METRICS_PORT_H
#define METRICS_PORT_H

#include "report.h"

#ifdef WITH_MICROHTTPD
#include <arpa/inet.h>
#include <microhttpd.h>

enum { MOST_CLIENTS = 32, CLIENT_SECONDS = 10 };

static inline enum MHD_Result answer_text(struct MHD_Connection *client, unsigned status, char *text, size_t len,
    enum MHD_ResponseMemoryMode mode)
{
    struct MHD_Response *response = MHD_create_response_from_buffer(len, text, mode);
    if (!response)
        return MHD_NO;
    // (The version is that of Prometheus' text format.)
    (void)MHD_add_response_header(response, "Content-Type", "text/plain; version=0.0.4; charset=utf-8");
    if (status == MHD_HTTP_METHOD_NOT_ALLOWED)
        (void)MHD_add_response_header(response, "Allow", "GET, HEAD");
    enum MHD_Result is_answered = MHD_queue_response(client, status, response);
    MHD_destroy_response(response);
    return is_answered;
}

// Answers a request: any thread's memory may be used, and the counts are atomic.
static inline enum MHD_Result answer_request(void *shown, struct MHD_Connection *client, const char *path,
    const char *method, const char *version, const char *body, size_t *len, void **request)
{
    char *text = NULL;
    size_t text_len = 0;
    (void)version, (void)body, (void)len, (void)request;
    if (strcmp(method, "GET") && strcmp(method, "HEAD"))
        return answer_text(client, MHD_HTTP_METHOD_NOT_ALLOWED, "", 0, MHD_RESPMEM_PERSISTENT);
    if (strcmp(path, "/metrics"))
        return answer_text(client, MHD_HTTP_NOT_FOUND, "", 0, MHD_RESPMEM_PERSISTENT);
    FILE *to = open_memstream(&text, &text_len);
    if (!to)
        return MHD_NO;
    print_metrics(to, shown);
    if (fclose(to)) {
        free(text);
        return MHD_NO;
    }
    return answer_text(client, MHD_HTTP_OK, text, text_len, MHD_RESPMEM_MUST_FREE);
}

// Opens the port, if the command names one. It is there until the program ends.
static inline void open_metrics_port(struct metric *shown)
{
    if (!is_given("metrics-port"))
        return;
    uint64_t port = number_of("metrics-port");
    struct sockaddr_in at = {.sin_family = AF_INET, .sin_port = htons((uint16_t)port)};
    at.sin_addr.s_addr = htonl(INADDR_LOOPBACK);
    struct MHD_Daemon *server = MHD_start_daemon(MHD_USE_INTERNAL_POLLING_THREAD, (uint16_t)port, NULL, NULL,
        answer_request, shown, MHD_OPTION_SOCK_ADDR, (struct sockaddr *)&at, MHD_OPTION_CONNECTION_LIMIT,
        (unsigned)MOST_CLIENTS, MHD_OPTION_CONNECTION_TIMEOUT, (unsigned)CLIENT_SECONDS, MHD_OPTION_END);
    if (!server)
        die("--metrics-port", errno ? strerror(errno) : "it can't be opened");
    const union MHD_DaemonInfo *info = MHD_get_daemon_info(server, MHD_DAEMON_INFO_BIND_PORT);
    fprintf(stderr, "the counts are at http://127.0.0.1:%u/metrics\n", info ? info->port : (unsigned)port);
}
#else
static inline void open_metrics_port(struct metric *shown)
{
    (void)shown;
    if (is_given("metrics-port"))
        refuse_words("--metrics-port", "this program was compiled without libmicrohttpd");
}
#endif
#endif

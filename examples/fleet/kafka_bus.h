// A connection to brokers that speak the Kafka protocol, by librdkafka, which comes back by itself. Any property of
// that library can be given: TLS, passwords, compression, batches (its CONFIGURATION.md lists them).
#ifndef KAFKA_BUS_H
#define KAFKA_BUS_H

#include "report.h"

#include <librdkafka/rdkafka.h>

#define BUS "Kafka"
#define BUS_WORDS \
    TEXT_WORD("servers", "127.0.0.1:9092", "HOST:PORT,.."), \
    TEXT_WORD("topic", "trace", "the topic"), \
    MANY_WORD("property", "K=V, a property of librdkafka; it may be given many times"), \
    TEXT_WORD("properties", NULL, "file of such properties, one a line")

static inline void configure(rd_kafka_conf_t *conf, const char *name, const char *value)
{
    char fault[512];
    if (rd_kafka_conf_set(conf, name, value, fault, sizeof fault) != RD_KAFKA_CONF_OK)
        refuse_words(name, fault);
}

static inline void configure_pair(rd_kafka_conf_t *conf, const char *pair)
{
    char name[4096];
    const char *equals = strchr(pair, '=');
    if (!equals || snprintf(name, sizeof name, "%.*s", (int)(equals - pair), pair) >= (int)sizeof name)
        refuse_words(pair, "it is no K=V");
    configure(conf, name, equals + 1);
}

static inline void configure_lines(rd_kafka_conf_t *conf, const char *path)
{
    char line[4096];
    FILE *from = fopen(path, "r");
    if (!from)
        die(path, strerror(errno));
    while (fgets(line, sizeof line, from)) {
        line[strcspn(line, "\r\n")] = 0;
        if (*line && *line != '#')
            configure_pair(conf, line);
    }
    (void)fclose(from);
}

// Those that the command gives. What is configured after them stays as it is.
static inline void configure_given(rd_kafka_conf_t *conf)
{
    const struct word *given = word_named("property");
    if (is_given("properties"))
        configure_lines(conf, text_of("properties"));
    for (size_t k = 0; k < given->count; k++)
        configure_pair(conf, given->all[k]);
}

static atomic_bool is_bus_down;

static inline void on_fault(rd_kafka_t *kafka, int fault, const char *why, void *closure)
{
    (void)kafka;
    (void)closure;
    if (fault == RD_KAFKA_RESP_ERR__ALL_BROKERS_DOWN)
        is_bus_down = true;
    report(rd_kafka_err2name((rd_kafka_resp_err_t)fault), why);
}

// Brokers are given as `--servers HOST:PORT,..`. None of them need be there yet.
static inline rd_kafka_conf_t *configured(void)
{
    rd_kafka_conf_t *conf = rd_kafka_conf_new();
    configure(conf, "bootstrap.servers", text_of("servers"));
    configure(conf, "reconnect.backoff.max.ms", "1000");
    // A broker that says nothing for three seconds is left.
    configure(conf, "socket.connection.setup.timeout.ms", "3000");
    configure(conf, "api.version.request.timeout.ms", "3000");
    configure(conf, "log.connection.close", "false");
    rd_kafka_conf_set_error_cb(conf, on_fault);
    return conf;
}

static inline rd_kafka_t *connected(rd_kafka_type_t type, rd_kafka_conf_t *conf)
{
    char fault[512];
    rd_kafka_t *kafka = rd_kafka_new(type, conf, fault, sizeof fault);
    if (!kafka)
        refuse_words("the properties", fault);
    return kafka;
}
#endif

// Three brokers of librdkafka's mock cluster, for `test`: they speak the Kafka protocol on 127.0.0.1 and keep all in
// memory, up to 5 MB a partition. It prints their addresses, and carries out `down N`, `up N`, `delay MILLISECONDS`,
// `put TEXT` (a message of partition 0) and `owed GROUP` (it prints how many messages the group hasn't committed), a
// line each; it ends with its input.
//
//     mock_kafka [PORT PORT PORT]
//
// Clients are told these ports in place of those at which the brokers listen, which are printed: so what is between
// them, as a proxy with TLS, which the brokers don't have, is told to clients as the brokers.
#include "kafka_bus.h"

#include <librdkafka/rdkafka_mock.h>
#include <netinet/in.h>
#include <sys/syscall.h>

enum { BROKERS = 3, PARTITIONS = 32 };

static char **ports_told; // up to a null

// The library asks by this call at which port a new broker listens.
int getsockname(int of, __SOCKADDR_ARG address, socklen_t *restrict len)
{
    struct sockaddr_in *found = address.__sockaddr_in__;
    int status = (int)syscall(SYS_getsockname, of, found, len);
    if (!status && found->sin_family == AF_INET && ports_told && *ports_told) {
        printf("port %u is told as %s\n", ntohs(found->sin_port), *ports_told);
        found->sin_port = htons((uint16_t)atoi(*ports_told++));
    }
    return status;
}

// Answers whether the message is there.
static bool put(const char *servers, char *text)
{
    rd_kafka_conf_t *conf = rd_kafka_conf_new();
    configure(conf, "bootstrap.servers", servers);
    rd_kafka_t *kafka = connected(RD_KAFKA_PRODUCER, conf);
    rd_kafka_resp_err_t fault = rd_kafka_producev(kafka, RD_KAFKA_V_TOPIC("trace"), RD_KAFKA_V_PARTITION(0),
        RD_KAFKA_V_VALUE(text, strlen(text)), RD_KAFKA_V_MSGFLAGS(RD_KAFKA_MSG_F_COPY), RD_KAFKA_V_END);
    fault = fault ? fault : rd_kafka_flush(kafka, 600000);
    rd_kafka_destroy(kafka);
    return !fault;
}

// How many messages of the topic a group hasn't committed, or -1 if the brokers don't answer in time.
static int64_t owed(const char *servers, const char *group)
{
    rd_kafka_conf_t *conf = rd_kafka_conf_new();
    configure(conf, "bootstrap.servers", servers);
    configure(conf, "group.id", group);
    rd_kafka_t *kafka = connected(RD_KAFKA_CONSUMER, conf);
    rd_kafka_topic_partition_list_t *places = rd_kafka_topic_partition_list_new(PARTITIONS);
    rd_kafka_topic_partition_list_add_range(places, "trace", 0, PARTITIONS - 1);
    int64_t sum = rd_kafka_committed(kafka, places, 5000) ? -1 : 0;
    for (int k = 0; k < PARTITIONS && sum >= 0; k++) {
        int64_t first, end, place = places->elems[k].offset;
        if (places->elems[k].err || rd_kafka_query_watermark_offsets(kafka, "trace", k, &first, &end, 5000))
            sum = -1;
        else
            sum += end - (place < first ? first : place); // (it is negative if nothing was committed)
    }
    rd_kafka_topic_partition_list_destroy(places);
    rd_kafka_destroy(kafka);
    return sum;
}

int main(int argc, char **argv)
{
    ports_told = argv + (argc > 0);
    rd_kafka_t *kafka = connected(RD_KAFKA_PRODUCER, rd_kafka_conf_new());
    rd_kafka_mock_cluster_t *cluster = rd_kafka_mock_cluster_new(kafka, BROKERS);
    char line[64], what[16], word[32];
    if (!cluster || rd_kafka_mock_topic_create(cluster, "trace", PARTITIONS, BROKERS))
        die("rd_kafka_mock_cluster_new", "it fails");
    const char *servers = rd_kafka_mock_cluster_bootstraps(cluster);
    printf("%s\n", servers);
    (void)fflush(stdout);
    while (fgets(line, sizeof line, stdin)) {
        if (sscanf(line, "%15s %31s", what, word) != 2)
            die("mock_kafka", line);
        int number = atoi(word);
        if (!strcmp(what, "owed")) {
            printf("owed %s %" PRId64 "\n", word, owed(servers, word));
            (void)fflush(stdout);
        } else if (!strcmp(what, "put")) {
            printf("put %s %s\n", word, put(servers, word) ? "there" : "refused");
            (void)fflush(stdout);
        } else if (!strcmp(what, "down"))
            (void)rd_kafka_mock_broker_set_down(cluster, number);
        else if (!strcmp(what, "up"))
            (void)rd_kafka_mock_broker_set_up(cluster, number);
        else
            (void)rd_kafka_mock_broker_set_rtt(cluster, -1, number);
    }
    rd_kafka_mock_cluster_destroy(cluster);
    rd_kafka_destroy(kafka);
}

// Gets messages over the Kafka protocol. What is acknowledged is how far it came in each partition. Receivers that
// share a name get some of the partitions each.
#ifndef KAFKA_RECEIVER_H
#define KAFKA_RECEIVER_H

#include "kafka_bus.h"

#define RECEIVER_WORDS \
    NUMBER_WORD("session", "6000", 1, 3600000, "milliseconds after which a killed collector's partitions go to others")

enum { BATCH = 256 };

static struct {
    rd_kafka_t *kafka;
    rd_kafka_topic_partition_list_t *came, *unkept; // places: of what came, and partitions with what wasn't kept
} receiver;

static inline void check_bus_words(void)
{
}

static inline void open_bus(const char *group)
{
    rd_kafka_conf_t *conf = configured();
    configure(conf, "auto.offset.reset", "earliest");
    configure(conf, "heartbeat.interval.ms", "500");
    configure(conf, "session.timeout.ms", text_of("session"));
    configure_given(conf);
    configure(conf, "group.id", group);
    configure(conf, "enable.auto.commit", "false");
    receiver.kafka = connected(RD_KAFKA_CONSUMER, conf);
    receiver.came = rd_kafka_topic_partition_list_new(1);
    receiver.unkept = rd_kafka_topic_partition_list_new(1);
    (void)rd_kafka_poll_set_consumer(receiver.kafka);
    rd_kafka_topic_partition_list_t *topics = rd_kafka_topic_partition_list_new(1);
    rd_kafka_topic_partition_list_add(topics, text_of("topic"), RD_KAFKA_PARTITION_UA);
    rd_kafka_resp_err_t fault = rd_kafka_subscribe(receiver.kafka, topics);
    if (fault)
        die("rd_kafka_subscribe", rd_kafka_err2str(fault));
    rd_kafka_topic_partition_list_destroy(topics);
}

// (The library takes its time by itself.)
static inline bool is_bus_there(void)
{
    return true;
}

// (After all brokers were away it isn't known that one is there again before the next message.)
static inline bool has_connection(void)
{
    return !is_bus_down;
}

// The next message of this one's partition is the first that isn't in the log. But no place is noted from a message on
// that wasn't kept: whoever has the partition next begins with that, and knows what is behind it.
static inline void note_place(const rd_kafka_message_t *message, bool is_kept)
{
    const char *topic = rd_kafka_topic_name(message->rkt);
    if (rd_kafka_topic_partition_list_find(receiver.unkept, topic, message->partition))
        return;
    if (!is_kept) {
        (void)rd_kafka_topic_partition_list_add(receiver.unkept, topic, message->partition);
        return;
    }
    rd_kafka_topic_partition_t *place = rd_kafka_topic_partition_list_find(receiver.came, topic, message->partition);
    if (!place)
        place = rd_kafka_topic_partition_list_add(receiver.came, topic, message->partition);
    place->offset = message->offset + 1;
}

// Gives each message of the next batch to `add`, which answers whether it may be acknowledged. Answers how many it has.
static inline size_t receive(bool (*add)(const void *, size_t))
{
    size_t count = 0;
    for (rd_kafka_message_t *next; count < BATCH && (next = rd_kafka_consumer_poll(receiver.kafka, count ? 0 : 500));) {
        // (Brokers that are away, and a topic that isn't there yet, are messages too: the library tries again.)
        if (next->err) {
            report(rd_kafka_err2name(next->err), rd_kafka_message_errstr(next));
        } else {
            is_bus_down = false;
            note_place(next, add(next->payload, next->len));
            count++;
        }
        rd_kafka_message_destroy(next);
    }
    return count;
}

// One that is lost makes its messages come again.
static inline void acknowledge(void)
{
    if (receiver.came->cnt)
        (void)rd_kafka_commit(receiver.kafka, receiver.came, 0);
    rd_kafka_topic_partition_list_destroy(receiver.came);
    receiver.came = rd_kafka_topic_partition_list_new(1);
}

// How many messages the brokers had after those that came, as the library last heard.
static inline uint64_t lag_of_bus(void)
{
    rd_kafka_topic_partition_list_t *places = NULL;
    uint64_t sum = 0;
    if (rd_kafka_assignment(receiver.kafka, &places))
        return 0;
    bool is_known = !rd_kafka_position(receiver.kafka, places);
    for (int k = 0; is_known && k < places->cnt; k++) {
        const rd_kafka_topic_partition_t *each = &places->elems[k];
        int64_t first, end;
        if (!rd_kafka_get_watermark_offsets(receiver.kafka, each->topic, each->partition, &first, &end)
            && end > each->offset && each->offset >= 0)
            sum += (uint64_t)(end - each->offset);
    }
    rd_kafka_topic_partition_list_destroy(places);
    return sum;
}

static inline void close_bus(void)
{
    (void)rd_kafka_consumer_close(receiver.kafka);
    rd_kafka_topic_partition_list_destroy(receiver.came);
    rd_kafka_topic_partition_list_destroy(receiver.unkept);
    rd_kafka_destroy(receiver.kafka);
}
#endif

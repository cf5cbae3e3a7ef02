// Sends pieces over the Kafka protocol. librdkafka sends what it is given again by itself, until the brokers have
// acknowledged it. A ring's pieces have one key, so that they are in one partition.
#ifndef KAFKA_SENDER_H
#define KAFKA_SENDER_H

#include "kafka_bus.h"
#include "source.h"

static struct {
    rd_kafka_t *kafka;
    rd_kafka_topic_t *topic;
    void (*acknowledged)(const void *bytes);
} sender;

static inline void on_delivery(rd_kafka_t *kafka, const rd_kafka_message_t *message, void *closure)
{
    (void)kafka;
    (void)closure;
    metrics[ON_THE_WAY].value--;
    if (message->err) {
        // (Collectors find its numbers unknown.)
        report("a piece isn't taken", rd_kafka_err2str(message->err));
        count(LOST, 1);
        return;
    }
    is_bus_down = false;
    sender.acknowledged(message->payload);
    count(ACKNOWLEDGED, 1);
}

static inline void check_bus_words(void)
{
}

static inline void open_bus(size_t window, void (*acknowledged)(const void *bytes))
{
    (void)window;
    sender.acknowledged = acknowledged;
    rd_kafka_conf_t *conf = configured();
    configure(conf, "linger.ms", "5");
    configure_given(conf);
    configure(conf, "acks", "all");
    configure(conf, "message.timeout.ms", "0"); // for ever
    rd_kafka_conf_set_dr_msg_cb(conf, on_delivery);
    sender.kafka = connected(RD_KAFKA_PRODUCER, conf);
    sender.topic = rd_kafka_topic_new(sender.kafka, text_of("topic"), NULL);
    if (!sender.topic)
        die("rd_kafka_topic_new", rd_kafka_err2str(rd_kafka_last_error()));
}

// The library takes pieces whether the brokers are there or not.
static inline bool is_bus_there(void)
{
    (void)rd_kafka_poll(sender.kafka, 0);
    metrics[CONNECTED].value = !is_bus_down;
    return true;
}

static inline bool send_again(void)
{
    return false;
}

// Gives the bus a piece, which it has from now on. False: it has no room.
static inline bool send_piece(const struct piece *piece)
{
    char key[64];
    int len = snprintf(key, sizeof key, "%016" PRIx64 ":%" PRIu32, piece->stream, piece->cpu);
    if (rd_kafka_produce(sender.topic, RD_KAFKA_PARTITION_UA, RD_KAFKA_MSG_F_COPY, (void *)(uintptr_t)piece->bytes,
            piece->len, key, (size_t)len, NULL)) {
        if (rd_kafka_last_error() != RD_KAFKA_RESP_ERR__QUEUE_FULL)
            report("a piece isn't sent", rd_kafka_err2str(rd_kafka_last_error()));
        return false;
    }
    metrics[ON_THE_WAY].value++;
    return true;
}

// (rd_kafka_destroy would wait for what is on the way.)
static inline void close_bus(void)
{
}
#endif

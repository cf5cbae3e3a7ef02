// Sends pieces to NATS JetStream, each until it is acknowledged. The server knows a message that comes again by its
// Nats-Msg-Id, for as long as its stream's window of duplicates is (two minutes, unless it is configured).
#ifndef NATS_SENDER_H
#define NATS_SENDER_H

#include "nats_bus.h"
#include "source.h"

static struct {
    natsConnection *connection;
    jsCtx *js;
    bool has_stream;
    double next_try;
    // What the library gave back to be published again. (Its thread does.)
    pthread_mutex_t lock;
    natsMsg **refused;
    size_t refused_count, due;
    double next; // when these are due
    void (*acknowledged)(const void *bytes);
} sender = {.lock = PTHREAD_MUTEX_INITIALIZER};

static inline void put_back(natsMsg *message)
{
    pthread_mutex_lock(&sender.lock);
    sender.refused[sender.refused_count++] = message;
    pthread_mutex_unlock(&sender.lock);
}

// An acknowledgment, a refusal, or neither in time.
static inline void on_answer(jsCtx *of, natsMsg *message, jsPubAck *ack, jsPubAckErr *fault, void *closure)
{
    (void)of;
    (void)closure;
    if (!ack) {
        if (fault && fault->ErrText)
            report("JetStream refuses a piece", fault->ErrText);
        put_back(message);
        return;
    }
    sender.acknowledged(natsMsg_GetData(message));
    natsMsg_Destroy(message);
    metrics[ON_THE_WAY].value--;
    count(ACKNOWLEDGED, 1);
}

static inline bool publish(natsMsg *message)
{
    char id[64];
    const void *bytes = natsMsg_GetData(message);
    size_t len = (size_t)natsMsg_GetDataLength(message);
    jsPubOptions options;
    jsPubOptions_Init(&options);
    // (Two pieces of one page have other lengths, or other checksums.)
    (void)snprintf(id, sizeof id, "%016" PRIx64 ".%" PRIu64 ".%" PRIu64 ".%zu.%08" PRIx64, number_at(bytes, STREAM_AT),
        number_at(bytes, CPU_AT), number_at(bytes, FILL_AT), len, number_at(bytes, len - SUM_BYTES));
    options.MaxWait = 2000;
    options.MsgId = id;
    natsStatus status = js_PublishMsgAsync(sender.js, &message, &options);
    if (status == NATS_OK)
        return true;
    report("a piece isn't sent", nats_cause(status));
    put_back(message);
    return false;
}

static inline void open_bus(size_t window, void (*acknowledged)(const void *bytes))
{
    sender.refused = allocated(window, sizeof *sender.refused);
    sender.acknowledged = acknowledged;
    natsOptions_Destroy(bus_options()); // (so that wrong words are refused before anything is recorded)
}

// Makes the bus's stream, which has the subjects of all hosts, if no other host did. False: not yet.
static inline bool make_stream(void)
{
    char subject[128];
    const char *subjects[] = {subject};
    jsStreamConfig config;
    jsErrCode fault = 0;
    (void)snprintf(subject, sizeof subject, "%s.>", text_of("subject"));
    jsStreamConfig_Init(&config);
    config.Name = text_of("stream");
    config.Subjects = subjects;
    config.SubjectsLen = 1;
    config.Replicas = (int64_t)number_of("copies");
    config.MaxAge = (int64_t)number_of("keep-seconds") * 1000000000;
    natsStatus status = js_AddStream(NULL, sender.js, &config, NULL, &fault);
    // (Whoever made it may have wanted other copies.)
    sender.has_stream = status == NATS_OK || fault == JSStreamNameExistErr;
    if (!sender.has_stream)
        report("JetStream's stream can't be made", nats_cause(status));
    return sender.has_stream;
}

// Connects, and makes the stream. False: not yet. (Tries without a pause would use up all ports.)
static inline bool is_bus_there(void)
{
    if (sender.has_stream)
        return metrics[CONNECTED].value = is_connected(sender.connection);
    if (seconds_now() < sender.next_try)
        return false;
    sender.next_try = seconds_now() + 0.1;
    if (!sender.connection) {
        if (!(sender.connection = connect_to_bus()))
            return false;
        sender.js = jetstream(sender.connection, on_answer);
    }
    metrics[CONNECTED].value = is_connected(sender.connection);
    return metrics[CONNECTED].value && make_stream();
}

// Publishes one of those that are to be published again: each tenth of a second all that are there then.
static inline bool send_again(void)
{
    pthread_mutex_lock(&sender.lock);
    if (!sender.due && seconds_now() > sender.next) {
        sender.due = sender.refused_count;
        sender.next = seconds_now() + 0.1;
    }
    natsMsg *message = sender.due ? sender.refused[--sender.refused_count] : NULL;
    pthread_mutex_unlock(&sender.lock);
    sender.due -= message != NULL;
    count(RESENT, message != NULL);
    return message && publish(message);
}

// Gives the bus a piece, which it has from now on. False: it isn't there, or lacks time.
static inline bool send_piece(const struct piece *piece)
{
    char subject[192];
    natsMsg *message;
    const char *prefix = text_of("subject");
    (void)snprintf(subject, sizeof subject, "%s.%016" PRIx64 ".%" PRIu32, prefix, piece->stream, piece->cpu);
    must_nats(natsMsg_Create(&message, subject, NULL, (const char *)piece->bytes, (int)piece->len), "natsMsg_Create");
    metrics[ON_THE_WAY].value++;
    (void)publish(message);
    return true;
}

static inline void close_bus(void)
{
    jsCtx_Destroy(sender.js);
    natsConnection_Destroy(sender.connection);
    nats_Close();
}
#endif

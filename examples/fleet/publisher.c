// A host of the fleet: it sends pieces over a bus, each until the bus has acknowledged it. It has `--window` on the way
// at most: if the bus is slow or away, it reads no page meanwhile, and the rings overwrite their oldest pages and count
// what is lost. README.md here says how to compile it, for NATS JetStream or, with -DKAFKA, for the Kafka protocol.
//
//     publisher --region FILE ..    sends the pages of other processes' regions, and recorders' files, as they close
//     publisher --kernel FOLDER     sends those of a kernel's trace_pipe_raw; the folder is of tracefs, or one instance
//     publisher --rings             sends rings of its own, into which it writes events: a program to be copied
//
// `publisher --help` has all words. It ends by a signal (SIGTERM, SIGINT), once what is left is sent, or when its
// source has come to its end. The status is 3 if the bus didn't acknowledge all of it in `--patience` seconds.
#ifdef KAFKA
#include "kafka_sender.h"
#else
#include "nats_sender.h"
#endif
#include "host.h"
#include "kernel_source.h"
#include "metrics_port.h"
#include "region_source.h"

static struct word words[] = {
    MANY_WORD("region", "a region's or a recorder's file; it may be given many times"),
    TEXT_WORD("kernel", NULL, "a folder of tracefs, with per_cpu/cpuN/trace_pipe_raw"),
    FLAG_WORD("rings", "rings of this process"),
    NUMBER_WORD("window", "256", 1, 1000000, "pieces that are on the way at most"),
    NUMBER_WORD("patience", "60", 0, A_BILLION, "seconds to wait at the end"),
    STREAM_WORDS, STATE_WORDS, REGION_WORDS, KERNEL_WORDS, HOST_WORDS, BUS_WORDS, REPORT_WORDS,
    LAST_WORD,
};

static struct source chosen_source(void)
{
    if (is_given("region") + is_given("kernel") + is_given("rings") != 1)
        refuse_words("--region, --kernel, --rings", "one of them, and no more, says what is sent");
    return is_given("region") ? region_source() : is_given("kernel") ? kernel_source() : host_source();
}

// Sends what there is: one piece. False: there is nothing to do for now.
static bool send_next(const struct source *source, uint64_t window)
{
    static struct piece piece;
    static bool is_held; // the bus didn't take the piece, and it is the next one again
    if (send_again())
        return true;
    if (metrics[ON_THE_WAY].value >= window || !(is_held || source->next(&piece)))
        return false;
    is_held = !send_piece(&piece);
    if (is_held)
        return false;
    count(PIECES, 1);
    count(SENT_BYTES, piece.len);
    return true;
}

int main(int argc, char **argv)
{
    read_words(words, argc, argv, "publisher: sends the pages of rings over " BUS);
    check_bus_words();
    uint64_t window = number_of("window");
    double until = 0;
    stop_at_signals();
    open_metrics_port(metrics);
    struct source source = chosen_source(); // rings record from here on, whether the bus is there or not
    open_bus(window, source.acknowledged);
    while (!source.is_done() || metrics[ON_THE_WAY].value) {
        if (!is_bus_there() || !send_next(&source, window))
            wait_milliseconds(1);
        if (are_metrics_due())
            write_metrics(metrics);
        if (is_stopped && until <= 0)
            until = seconds_now() + (double)number_of("patience");
        if (until > 0 && seconds_now() > until)
            break;
    }
    bool is_sent = source.is_done() && !metrics[ON_THE_WAY].value && !metrics[LOST].value;
    printf("sent %" PRIu64 " again %" PRIu64 " bytes %" PRIu64 "\n", (uint64_t)metrics[PIECES].value,
        (uint64_t)metrics[RESENT].value, (uint64_t)metrics[SENT_BYTES].value);
    source.end();
    write_metrics(metrics);
    if (!is_sent)
        fprintf(stderr, "the bus didn't acknowledge all in time\n");
    close_bus();
    (void)fflush(NULL);
    _Exit(is_sent ? 0 : 3); // (librdkafka's threads, and the library of NATS, may still be at work)
}

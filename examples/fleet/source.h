// Where a publisher's pieces come from: rings of its own process (host.h), regions and recorders' files of other
// processes (region_source.h), or a kernel (kernel_source.h).
#ifndef SOURCE_H
#define SOURCE_H

#include "report.h"

struct source {
    // The next piece that is to be sent; false, if there is none now.
    bool (*next)(struct piece *piece);
    // The bus has acknowledged a piece. Any thread may call it.
    void (*acknowledged)(const void *bytes);
    // Whether nothing more will come: after a signal, if nothing is left, or because all has come to its end.
    bool (*is_done)(void);
    // What is said of it at the end.
    void (*end)(void);
};

enum publisher_metric {
    PIECES, ACKNOWLEDGED, RESENT, SENT_BYTES, ON_THE_WAY, MISSING, UNKNOWN_LOSSES, DAMAGED_PAGES, CONNECTED,
    LOST,     PUBLISHER_METRICS
};

static struct metric metrics[PUBLISHER_METRICS + 1] = {
    [PIECES] = {"pieces_total", "counter", "Pieces that were given to the bus.", 0},
    [ACKNOWLEDGED] = {"pieces_acknowledged_total", "counter", "Pieces that the bus has acknowledged.", 0},
    [RESENT] = {"pieces_resent_total", "counter", "Times that a piece was given to the bus again.", 0},
    [SENT_BYTES] = {"bytes_total", "counter", "Bytes of pieces.", 0},
    [ON_THE_WAY] = {"pieces_on_the_way", "gauge", "Pieces that the bus hasn't acknowledged yet.", 0},
    [MISSING] = {"records_missing_total", "counter", "Records that were overwritten before they were read.", 0},
    [UNKNOWN_LOSSES] = {"losses_of_unknown_number_total", "counter", "Losses whose number the kernel doesn't say.", 0},
    [DAMAGED_PAGES] = {"pages_damaged_total", "counter", "Pages that can't be read.", 0},
    [LOST] = {"pieces_lost_total", "counter", "Pieces that the bus refused for good.", 0},
    [CONNECTED] = {"bus_connected", "gauge", "Whether the bus is there: 1 or 0.", 0},
};

static inline void count(enum publisher_metric which, uint64_t by)
{
    metrics[which].value += by;
}

// Makes the piece that says how many records a CPU of a stream has.
static inline void pack_end(struct piece *piece, uint64_t stream, uint32_t cpu, uint64_t records)
{
    piece->stream = stream;
    piece->cpu = cpu;
    must(tracering_pack_end(stream, cpu, records, piece->bytes, sizeof piece->bytes, &piece->len), "pack_end");
}
#endif

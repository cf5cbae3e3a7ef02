// Makes each call of the library once, so that a debugger can be asked at each of its instructions who called it
// (walked.py).
#include "tracering.h"

#include <stdio.h>

enum { PAGES = 2, SIZE = 32, ROOM = TRACERING_HEADER + SIZE };

static uint8_t page[ROOM], peeked[ROOM], rest[ROOM];

// A record by its parts, a close of its page, and a record that is written whole.
static int write_all(struct tracering_writer *w)
{
    int bad = tracering_begin(w, 1, 4) != TRACERING_DONE || tracering_finish(w) != TRACERING_RESERVED;
    bad += tracering_put(w, "abcd", 4) != TRACERING_DONE || tracering_depth(w) != 1;
    bad += tracering_end(w) != TRACERING_DONE || tracering_finish(w) != TRACERING_DONE;
    bad += tracering_begin_close(w) != TRACERING_DONE || tracering_finish(w) != TRACERING_DONE;
    return bad + (tracering_write(w, 2, "efgh", 4) != TRACERING_DONE);
}

static int collect(struct tracering_collector *c, const struct tracering_taken *last)
{
    struct tracering_collector other = TRACERING_COLLECTOR_INIT;
    struct tracering_fault_at at;
    struct tracering_run run;
    struct tracering_line line;
    size_t count;
    int bad = tracering_collector_new(c) != TRACERING_DONE || tracering_collector_new(&other) != TRACERING_DONE;
    bad += tracering_collector_add(c, page, sizeof page, &at) != TRACERING_DONE;
    bad += tracering_collector_add(c, rest, last->len, &at) != TRACERING_DONE;
    bad += tracering_collector_missing(c, 0, &run, 1, &count) != TRACERING_DONE || count != 0;
    bad += tracering_collector_list(c, &count) != TRACERING_DONE || count != 2;
    bad += tracering_collector_next(c, peeked, sizeof peeked, &line) != TRACERING_DONE || line.moment != 1;
    bad += tracering_collector_same(c, &other) != TRACERING_DIFFERENT;
    return bad + (tracering_collector_free(c) != TRACERING_DONE) + (tracering_collector_free(&other) != TRACERING_DONE);
}

// Adds the page that was taken to one fleet, and the last one with the CPU's end to another.
static int add_all(struct tracering_fleet *f, struct tracering_fleet *other, const struct tracering_taken *last)
{
    uint8_t piece[TRACERING_PIECE(ROOM)];
    struct tracering_stream_fault at;
    size_t len, used;
    int bad = tracering_fleet_new(f) != TRACERING_DONE || tracering_fleet_new(other) != TRACERING_DONE;
    bad += tracering_pack(7, page, sizeof page, piece, sizeof piece, &len) != TRACERING_DONE;
    bad += tracering_fleet_add(f, piece, len, &used, &at) != TRACERING_DONE || used != len;
    bad += tracering_pack(7, rest, last->len, piece, sizeof piece, &len) != TRACERING_DONE;
    bad += tracering_fleet_add(other, piece, len, &used, &at) != TRACERING_DONE;
    bad += tracering_pack_end(7, 0, 3, piece, sizeof piece, &len) != TRACERING_DONE;
    bad += tracering_fleet_add(other, piece, len, &used, &at) != TRACERING_DONE;
    return bad + (tracering_fleet_same(f, other) != TRACERING_DIFFERENT) + tracering_fleet_merge(f, other, &at);
}

// What is known of a stream with two records, whose third one doesn't come.
static int read_fleet(struct tracering_fleet *f)
{
    struct tracering_cpu_state state;
    struct tracering_fleet_line line;
    struct tracering_run run;
    uint64_t stream, moment;
    uint32_t cpu;
    size_t count;
    int bad = tracering_fleet_next_stream(f, 0, &stream) != TRACERING_DONE || stream != 7;
    bad += tracering_fleet_next_cpu(f, 7, 0, &cpu) != TRACERING_DONE || cpu != 0;
    bad += tracering_fleet_state(f, 7, 0, &state) != TRACERING_DONE || state.watermark != 2 || state.end != 3;
    bad += tracering_fleet_missing(f, 7, 0, &run, 1, &count) != TRACERING_DONE || count != 0;
    bad += tracering_fleet_unknown(f, 7, 0, &run, 1, &count) != TRACERING_DONE || count != 1 || run.first != 2;
    bad += tracering_fleet_frontier(f, &moment) != TRACERING_DONE || moment != 2;
    bad += tracering_fleet_list_before(f, moment, &count) != TRACERING_DONE || count != 1;
    bad += tracering_fleet_next(f, peeked, sizeof peeked, &line) != TRACERING_DONE || line.moment != 1;
    return bad + (tracering_fleet_forget_before(f, moment) != TRACERING_DONE);
}

static int fleet(const struct tracering_taken *last)
{
    struct tracering_fleet f = TRACERING_FLEET_INIT, other = TRACERING_FLEET_INIT;
    struct tracering_stream_fault at;
    struct tracering_run run;
    uint8_t pieces[512];
    size_t count;
    int bad = add_all(&f, &other, last) + read_fleet(&f);
    bad += tracering_fleet_list(&f, &count) != TRACERING_DONE || count != 1;
    bad += tracering_fleet_forget(&f, 7, 0, 2, &at) != TRACERING_DONE;
    bad += tracering_fleet_give_up(&f, 7, 0, 3, &at) != TRACERING_DONE;
    bad += tracering_fleet_undelivered(&f, 7, 0, &run, 1, &count) != TRACERING_DONE || count != 1;
    bad += tracering_fleet_pack(&f, 7, pieces, sizeof pieces, &count) != TRACERING_DONE;
    return bad + (tracering_fleet_free(&f) != TRACERING_DONE) + (tracering_fleet_free(&other) != TRACERING_DONE);
}

// A ring whose page a collector takes, and that is freed.
static int take_and_free(void)
{
    struct tracering_writer w = TRACERING_WRITER_INIT;
    struct tracering_reader r = TRACERING_READER_INIT;
    struct tracering_collector c = TRACERING_COLLECTOR_INIT;
    struct tracering_taken taken;
    struct tracering_fault_at at;
    uint64_t lost;
    int bad = tracering_new(&w, &r, 0, PAGES, SIZE) != TRACERING_DONE || write_all(&w);
    bad += tracering_collector_new(&c) != TRACERING_DONE;
    bad += tracering_collector_take(&c, &r, &taken, &at) != TRACERING_DONE || taken.count != 1;
    bad += tracering_writer_free(&w, &lost) != TRACERING_DONE || tracering_reader_free(&r) != TRACERING_DONE;
    return bad + (tracering_collector_free(&c) != TRACERING_DONE);
}

int main(void)
{
    struct tracering_writer w = TRACERING_WRITER_INIT;
    struct tracering_reader r = TRACERING_READER_INIT;
    struct tracering_collector c = TRACERING_COLLECTOR_INIT;
    struct tracering_taken taken, last;
    int bad = tracering_new(&w, &r, 0, PAGES, SIZE) != TRACERING_DONE || write_all(&w);
    bad += tracering_take(&r, page, sizeof page, &taken) != TRACERING_DONE || taken.count != 1;
    bad += tracering_take(&r, peeked, sizeof peeked, &last) != TRACERING_EMPTY;
    bad += tracering_peek(&w, peeked, sizeof peeked, &taken) != TRACERING_DONE || taken.count != 1;
    bad += tracering_wish(&r) != TRACERING_DONE;
    bad += tracering_settle(&w, &r, rest, sizeof rest, &last) != TRACERING_DONE || last.count != 1;
    bad += collect(&c, &last) + fleet(&last) + take_and_free();
    printf("walked: %s\n", bad ? "answers are otherwise" : "as it is to be");
    return bad != 0;
}

// Chunks are decompressed piece by piece, so that their sizes, which may be forged, take no memory.
#include "output.h"

#include <stdlib.h>
#include <zlib.h>
#include <zstd.h>
#include <zstd_errors.h>

enum { PIECE = 1 << 16 };

// Where the decompression of a chunk is.
struct progress {
    const struct packed *file;
    const struct chunk *chunk;
    struct output *to;
    uint32_t read, made;
    uint8_t in[PIECE], out[PIECE];
};

static _Noreturn void refuse_bytes(const struct progress *at)
{
    refuse(at->file, at->chunk->at, "%u bytes aren't compressed by %s, or are damaged", at->chunk->packed,
        at->file->algorithm == ZSTD ? "zstd" : "zlib");
}

// Reads the next piece of the chunk, and gives its length: 0 at the chunk's end.
static size_t next_piece(struct progress *at)
{
    uint32_t left = at->chunk->packed - at->read;
    size_t len = left < PIECE ? left : PIECE;
    read_at(at->file, at->chunk->at + at->read, at->in, len);
    at->read += (uint32_t)len;
    return len;
}

static void put_piece(struct progress *at, size_t len)
{
    if (len > at->chunk->plain - at->made)
        refuse(at->file, at->chunk->at, "%u bytes are stated, and more are unpacked", at->chunk->plain);
    at->made += (uint32_t)len;
    put(at->file, at->to, at->out, len);
}

static void put_zstd(struct progress *at)
{
    ZSTD_DCtx *context = ZSTD_createDCtx();
    if (!context)
        end_without_memory();
    size_t wanted = 1, len;
    while ((len = next_piece(at)) > 0) {
        ZSTD_inBuffer in = {at->in, len, 0};
        ZSTD_outBuffer out = {at->out, PIECE, 0};
        // (A full buffer may leave bytes in the context.)
        while (in.pos < in.size || (wanted && out.pos == out.size)) {
            out.pos = 0;
            wanted = ZSTD_decompressStream(context, &out, &in);
            if (ZSTD_getErrorCode(wanted) == ZSTD_error_memory_allocation)
                end_without_memory();
            if (ZSTD_isError(wanted))
                refuse_bytes(at);
            put_piece(at, out.pos);
        }
    }
    ZSTD_freeDCtx(context);
    if (wanted)
        refuse_bytes(at);
}

static void put_zlib(struct progress *at)
{
    z_stream stream = {0};
    if (inflateInit(&stream) != Z_OK)
        end_without_memory();
    int answer = Z_OK;
    while (answer == Z_OK && (stream.avail_in = (uInt)next_piece(at)) > 0) {
        stream.next_in = at->in;
        do {
            stream.next_out = at->out;
            stream.avail_out = PIECE;
            answer = inflate(&stream, Z_NO_FLUSH);
            if (answer == Z_MEM_ERROR)
                end_without_memory();
            put_piece(at, PIECE - stream.avail_out);
        } while (answer == Z_OK && (stream.avail_in > 0 || stream.avail_out == 0));
        // (It answers so if there was nothing left to do.)
        answer = answer == Z_BUF_ERROR ? Z_OK : answer;
    }
    bool is_whole = answer == Z_STREAM_END && stream.avail_in == 0 && at->read == at->chunk->packed;
    inflateEnd(&stream);
    if (!is_whole)
        refuse_bytes(at);
}

void put_chunk(const struct packed *file, struct output *to, const struct chunk *chunk)
{
    struct progress *at = allocate(sizeof *at);
    at->file = file;
    at->chunk = chunk;
    at->to = to;
    at->read = at->made = 0;
    if (file->algorithm == ZSTD)
        put_zstd(at);
    else
        put_zlib(at);
    if (at->made != chunk->plain)
        refuse(file, chunk->at, "%u bytes are stated, and %u are unpacked", chunk->plain, at->made);
    free(at);
}

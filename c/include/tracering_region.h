// Rings whose pages lie in memory of the caller's: a file, or memory that is shared. If the process is killed, at any
// instruction, its records are still there, and while it runs, others can look at them.
//
//     size_t len = tracering_region_size(64, 4080);
//     void *region = tracering_region_file("ring.0", len);
//     if (!region || tracering_new_in(&writer, &reader, 0, 64, 4080, stream, region, len) != TRACERING_DONE)
//         return 1;
//     tracering_write(&writer, moment, "begun", 5);
//     kill(getpid(), SIGKILL);
//
// `tracering recover ring.0` prints what was written. `stream` is an id, another one for each run. A program to copy,
// which also makes such an id, is examples/c_recorder/survive.c.
//
// Regions. A ring of N pages of S bytes of data has N + 1 slots in its region, one for each page and one for the
// reader's. Records are written there and nowhere else: a call on such a ring takes no longer than on any other, but
// that the first store to a page of a file which the kernel writes back to its disk may wait for that. A slot says how
// much of it is whole in one word, its commit. That is zero from before the page's first byte until the first of its
// records is whole, and is stored whenever the last frame is completed: so what a kill interrupts is there whole, or
// not at all. docs/formats/pages.md, "Regions", has the bytes.
//
// Survivors. What is left is each record that was complete when nothing was begun, unless its page was overwritten, or
// given to the reader; the page that was given last is there until the reader's next take. Records that are nested in
// one that was never completed are lost with it. A file's bytes are those of the machine's page cache: they outlive the
// process, and a crash of the machine only if they were written back (msync).
//
// Order. That the stores of a call are made in their order is tested, and not proved. After a kill it is all that
// counts. Another thread sees that order on x86-64; on other machines, as arm64, a copy asks the kernel for it some ten
// times (membarrier(2)): that takes a copy microseconds, or some hundred milliseconds if the process that made the ring
// wasn't allowed the call; the writer pays nothing. docs/formats/pages.md, "While it is written", has the argument. It
// was tried in a model and under QEMU, not on such a machine.
//
// Threads. One writer and one reader use a ring at a time, as tracering.h says. Any thread or process may call
// tracering_region_about, tracering_region_copy and tracering_region_slot, and so may a handler: they take no memory
// and no lock. No handler may make a ring here, or map or unmap memory.
//
// Lengths are in bytes. A region begins at a multiple of 64 bytes, as all that is mapped here does. It stays mapped
// until both ends of its ring are freed or settled; then it may be unmapped, or have another ring. An end that was
// abandoned is never freed, and its region can't be used again. A forked child makes no call on a ring of its parent's.
#ifndef TRACERING_REGION_H
#define TRACERING_REGION_H

#include "tracering.h"

#ifdef __cplusplus
extern "C" {
#endif

// How many bytes of a region are before its slots, and of which number its beginning is a multiple.
#define TRACERING_REGION_HEADER 128
#define TRACERING_REGION_ALIGN 64

// What a region says of itself.
struct tracering_region {
    size_t pages;    // how many pages its ring has; it has one slot more
    size_t size;     // how many bytes of data each of them has
    uint32_t cpu;    // the ring's CPU
    bool has_ended;  // whether the writer was freed with nothing begun, or settled: then nothing is to follow
    uint64_t stream; // the id of its stream
    uint64_t taken;  // the number after the last record that the reader was given; 0 if it was given none
    size_t len;      // how many bytes it has; what may follow them is no part of it
};

// ---- Rings in regions.

// How many bytes the region of a ring has of `pages` pages (2 to 1,024) of `size` bytes of data each (32 to 65,520, a
// multiple of 4): TRACERING_REGION_HEADER, and for each of its pages + 1 slots TRACERING_HEADER + `size`, rounded up
// to a multiple of 64. It is 0 if no ring has these numbers: a ring has 67 megabytes of data at most.
size_t tracering_region_size(size_t pages, size_t size);

// The part of new_in between the handles' marks.
int32_t tracering_raw_new_in(struct tracering_held *, struct tracering_held *, uint32_t, size_t, size_t, uint64_t,
    void *, size_t);

// A new ring, as `tracering_new` makes it, whose pages are in the `len` bytes from `region` on. What was there before
// is gone. All other memory of the ring is malloc's. `stream` is an id for its records: another one for each run. Rings
// of one run may share it, if each has a CPU of its own (examples/c_recorder/survive.c; docs/formats/pages.md, "Streams
// of parcels"). The region becomes one last, when all else is stored: a process killed in this call leaves none.
// IN_USE, BAD_CPU, BAD_SIZE as new answers them. BAD_REGION: there are fewer bytes than `tracering_region_size` says,
// they begin at no multiple of TRACERING_REGION_ALIGN, or an end of another ring in them isn't freed. Then nothing is
// changed. NO_MEMORY: the handles aren't changed; the bytes may be, and then are no region.
static inline int32_t tracering_new_in(struct tracering_writer *w, struct tracering_reader *r, uint32_t cpu,
    size_t pages, size_t size, uint64_t stream, void *region, size_t len)
{
    if (!(w && r && region))
        return TRACERING_NULL;
    if (!tracering_enter_both(&w->in_call, &r->in_call))
        return TRACERING_BUSY;
    int32_t code = tracering_raw_new_in(&w->held, &r->held, cpu, pages, size, stream, region, len);
    if (code == TRACERING_DONE) {
        tracering_join(w, r, size);
        // (Where `taken` and `ended` are.)
        r->region_taken = (uint64_t *)region + 6;
        w->region_ended = (uint64_t *)region + 7;
    }
    return tracering_leave_both(&w->in_call, &r->in_call, code);
}

// ---- Memory for regions. Each answers where `len` bytes of zeros begin, or null and sets errno.

// A new file of this name, of mode 0600, mapped as shared; its blocks are allocated, so that no write finds the disk
// full. If there is a file of this name, it is named PATH~ first, and what had that name is gone: so what one run
// leaves is there until the second start after it. Nothing looks whether a process still has the file mapped: processes
// that run at once, a forked child and its parent too, need paths of their own. What is there and is no regular file is
// left alone (EEXIST). EINVAL: `len` is 0. EFBIG: `len` is more than RLIMIT_FSIZE allows (SIGXFSZ isn't sent). ENOSPC
// and others: there is no new file then, but the former one may be PATH~ already.
void *tracering_region_file(const char *path, size_t len);

// A new object of POSIX shared memory, of mode 0600; `name` begins with a slash. On Linux it is the file /dev/shm/NAME,
// for `tracering recover` too; it stays until shm_unlink or the machine's end. EEXIST: there is one of this name, which
// is left alone: recover what it has, and call shm_unlink. EFBIG: as of a file.
void *tracering_region_shared(const char *name, size_t len);

// Memory without a name, in huge pages of 2 MB if the machine has some set aside (`is_huge`, which may be null, says
// whether), else in ordinary ones. Forked children share it, so it outlives the process that writes if another one of
// these has it.
void *tracering_region_huge(size_t len, bool *is_huge);

// The file, or the object of shared memory on Linux, of this name, mapped to be read only; `len` is set to how many
// bytes it has. It may be a region that another process writes: copy that first (`tracering_region_copy`). EINVAL: it
// has none, or is no regular file.
const void *tracering_region_open(const char *path, size_t *len);

// Unmaps what one of these mapped: 0, or -1 and sets errno. EBUSY: an end of a ring in it isn't freed. The file or
// object stays.
int tracering_region_unmap(const void *region, size_t len);

// ---- Looking at regions.

// What the region says of itself, if it is one that can be read: `about` is set. BAD_REGION: its first 128 bytes aren't
// a region's, or it has fewer bytes than its slots need. The region may be anything, in any memory.
int32_t tracering_region_about(const void *region, size_t len, struct tracering_region *about);

// Copies the region of a ring that another thread or process writes, as it is now, so that the copy can be read; the
// writer isn't held up. Each slot's copy is whole: it has the records that were complete when it was copied. A slot
// that was overwritten meanwhile is empty in the copy. All records that were complete before the call are in the copy,
// but for pages that were overwritten, or given to the reader, before or meanwhile.
// `copy` has room for as many bytes as the region has (`len` of `tracering_region_about`). NO_ROOM: `copy_len` is too
// small. BAD_REGION: as there, or the region begins at no multiple of TRACERING_REGION_ALIGN; then nothing is copied,
// as with NO_ROOM. Or another ring, of another stream, was made there meanwhile; then the copy is no region,
// and isn't tried again: whoever asked for the ring of that stream has to know that it is gone. Or the machine isn't an
// x86-64, and its kernel refuses the calls that order loads ("Order"); then the copy is no region, too.
int32_t tracering_region_copy(const void *region, size_t len, void *copy, size_t copy_len);

// What slot `slot` (from 0 on) of a copy, or of a region that nothing writes any more, has: `bytes` is set to where in
// the region its parcel begins, with nothing missing before it, and `bytes_len` to how many bytes that has:
// `tracering_collector_add` and `tracering_pack` take it. The slots are in no order of time, and the page that the
// reader was given last may be among them.
// EMPTY: it has nothing, or is a page that ends below `taken`: that was taken before, or is overwritten. END: there are
// fewer slots. BAD_REGION: as `tracering_region_about`. BAD_CPU, BAD_IMAGE_SIZE, MISSED_DIFFERS: the slot is damaged:
// it has another CPU than the region, commits more bytes than a page has, or says that records were missed. (What else
// may be damaged, the call that takes the parcel answers.) If it answers anything but DONE, nothing is set.
int32_t tracering_region_slot(const void *region, size_t len, size_t slot, const void **bytes, size_t *bytes_len);

#ifdef __cplusplus
}
#endif
#endif

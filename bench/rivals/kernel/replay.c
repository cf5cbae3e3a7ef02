/*
 * Runs a script of `tracering replay` on the kernel's own ring buffer, for `bench/run kernel`. The kernel's source file
 * is compiled in from where it was unpacked (RING_SOURCE); nothing of it is kept here.
 *
 *   replay pages < SCRIPT    writes each page that is taken, 4,096 bytes as `ring_buffer_read_page` hands it out
 *   replay records < SCRIPT  prints what `tracering replay --log` prints; moments, payloads and losses are those that
 *                            `ring_buffer_consume` reports
 *
 * The script has one CPU, one collector and pages of 4,080 bytes. `b` and `w` set the clock and reserve at once, so `s`
 * has nothing to do; `t` reads a page that the writer has left; after a `c` it may read the one that the writer is on;
 * each page that was taken is delivered once. The status is 2 if the kernel reports other losses than it counts,
 * returns a record of an open frame, or refuses what only a full ring may, and 3 if one of its own checks warns.
 */
#include RING_SOURCE

#define MOST_FRAMES 4

int shim_level;
unsigned long shim_warnings;
struct task_struct shim_task;
static u64 now;

u64 shim_clock(void)
{
	return now;
}

struct frame { struct ring_buffer_event *event; unsigned char *bytes; unsigned length; };
struct record { u64 number, moment; unsigned length; unsigned char *bytes; };

static bool want_pages;
static struct trace_buffer *ring;
static struct ring_buffer_per_cpu *cpu;
static void *spare;
static unsigned long line;
static struct frame frames[MOST_FRAMES];
static int depth;
static bool in_place;           /* the page that the writer is on may be read */
static u64 safe;                /* how many records were committed when the outermost frame began */
static u64 taken, lost;         /* how many records were taken, and how many were lost before them */
static struct record *records;
static u64 kept;
static struct { u64 first, end; } *runs;
static u64 nruns;

static void die(const char *what)
{
	fprintf(stderr, "replay: line %lu: %s\n", line, what);
	exit(2);
}

static void *more(void *list, u64 length, size_t size)
{
	/* a power of two is where the room ends */
	if (length & (length - 1))
		return list;
	list = realloc(list, (length ? 2 * length : 1) * size);
	if (!list)
		die("no memory");
	return list;
}

#define LOG(...) do { if (!want_pages) printf(__VA_ARGS__); } while (0)

/* ---- the writers */

static void begin(u64 moment, unsigned char *bytes, unsigned length)
{
	struct frame *f = &frames[depth];

	if (depth == MOST_FRAMES)
		die("more frames than four");
	if (!depth)
		safe = local_read(&cpu->entries);
	now = moment;
	shim_level = depth;
	f->bytes = bytes;
	f->length = length;
	f->event = ring_buffer_lock_reserve(ring, length);
	if (!f->event && length <= BUF_MAX_DATA_SIZE)
		die("a record is refused that has room");
	if (f->event && length > BUF_MAX_DATA_SIZE)
		die("a record is kept that is too long");
	if (f->event)
		depth++;
	else
		LOG("%lu c0 refused TooLong\n", line);
}

static void finish(void)
{
	struct frame *f = &frames[--depth];
	unsigned room = ring_buffer_event_length(f->event);
	unsigned char *slot = ring_buffer_event_data(f->event);

	memcpy(slot, f->bytes, f->length);
	memset(slot + f->length, 0, room - f->length);
	shim_level = depth;
	ring_buffer_unlock_commit(ring, f->event);
}

/* ---- the reader */

/* how many bytes of the reader's page are unread */
static unsigned unread(void)
{
	struct buffer_page *page = cpu->reader_page;
	unsigned end = rb_page_commit(page);

	if (page != cpu->commit_page && page->real_end && page->real_end < end)
		end = page->real_end;
	return page->read < end ? end - page->read : 0;
}

/* whether the page that is read next is one that the writer has left */
static bool is_closed(void)
{
	if (cpu->reader_page == cpu->commit_page)
		return false;
	return unread() || rb_set_head_page(cpu) != cpu->commit_page;
}

/* returns the page, and answers what it reports of losses */
static u64 read_page(bool whole)
{
	u64 commit, size, told = 0;

	if (ring_buffer_read_page(ring, &spare, 4096, 0, whole) < 0)
		die("no page is handed out");
	memcpy(&commit, spare + 8, 8);
	size = commit & 0x3fffffff;
	if (commit >> 31 & 1 && commit >> 30 & 1)
		memcpy(&told, spare + 16 + size, 8);
	else if (commit >> 31 & 1)
		told = cpu->last_overrun - lost;        /* unknown */
	if (fwrite(spare, 1, 4096, stdout) != 4096)
		die("writing fails");
	return told;
}

/* reads the records of one page, and answers what is reported of losses */
static u64 read_records(void)
{
	struct buffer_page *page = NULL;
	unsigned long told = 0, before = 0;
	struct ring_buffer_event *event;
	struct record *r;
	u64 moment;

	while (!page || (cpu->reader_page == page && unread())) {
		event = ring_buffer_consume(ring, 0, &moment, &told);
		if (!event || (page && told))
			die("records end early, or losses are told amid them");
		if (!page)
			before = told;
		page = cpu->reader_page;
		records = more(records, kept, sizeof(*records));
		r = &records[kept++];
		r->moment = moment;
		r->length = ring_buffer_event_length(event);
		r->bytes = malloc(r->length);
		memcpy(r->bytes, ring_buffer_event_data(event), r->length);
	}
	return before;
}

static void take(void)
{
	bool whole = !in_place;
	u64 count = cpu->read, old = kept, told, missed;

	in_place = false;
	if (!is_closed() && (whole || ring_buffer_empty_cpu(ring, 0))) {
		LOG("%lu c0 empty\n", line);
		return;
	}
	told = want_pages ? read_page(whole) : read_records();
	missed = cpu->last_overrun - lost;
	count = cpu->read - count;
	lost = cpu->last_overrun;
	if (told != missed)
		die("other losses are told than counted");
	if (!want_pages && kept - old != count)
		die("other records come than are counted");
	if (depth && taken + lost + count > safe)
		die("a record comes of an open frame, or of one inside it");
	LOG("%lu c0 taken fill %lu first %lu count %lu missed %lu\n", line,
	    local_read(&cpu->pages_read) + local_read(&cpu->pages_lost) - 1, taken + lost, count, missed);
	for (u64 at = old; at < kept; at++)
		records[at].number = taken + lost + at - old;
	if (missed && nruns && runs[nruns - 1].end == taken + lost - missed) {
		runs[nruns - 1].end += missed;
	} else if (missed) {
		runs = more(runs, nruns, sizeof(*runs));
		runs[nruns].first = taken + lost - missed;
		runs[nruns++].end = taken + lost;
	}
	taken += count;
}

static void print_collector(void)
{
	printf("collector 0\n");
	for (u64 at = 0; at < kept; at++) {
		struct record *r = &records[at];

		printf("0 %lu %lu ", r->number, r->moment);
		for (unsigned byte = 0; byte < r->length; byte++)
			printf("%02x", r->bytes[byte]);
		printf("\n");
	}
	for (u64 at = 0; at < nruns; at++)
		printf("missing 0 %lu-%lu\n", runs[at].first, runs[at].end - 1);
}

/* ---- the script, which is trusted */

static unsigned char *payload(const char *hex, unsigned *length)
{
	unsigned char *bytes;

	*length = *hex == '-' ? 0 : strcspn(hex, "\n") / 2;
	bytes = malloc(*length + 1);
	for (unsigned at = 0; at < *length; at++)
		sscanf(hex + 2 * at, "%2hhx", &bytes[at]);
	return bytes;
}

static void obey(char *text)
{
	unsigned length;
	char *rest;

	if (*text == 'd') {
		LOG("%lu %.*s new\n", line, (int)strcspn(text, "\n"), text);
		return;
	}
	switch (text[3]) {
	case 'b': case 'w': {
		u64 moment = strtoul(text + 5, &rest, 10);
		unsigned char *bytes = payload(rest + 1, &length);

		begin(moment, bytes, length);
		if (text[3] == 'w' && length <= BUF_MAX_DATA_SIZE)
			finish();
		break;
	}
	case 'f':
		finish();
		break;
	case 't':
		take();
		break;
	case 'c':
		in_place = true;
		break;
	case 's':
		break;
	default:
		die("no command of this driver");
	}
}

int main(int argc, char **argv)
{
	char *text = NULL;
	size_t size = 0;
	unsigned long pages;

	want_pages = argc > 1 && !strcmp(argv[1], "pages");
	for (line = 1; getline(&text, &size, stdin) > 0; line++) {
		if (line == 1) {
			pages = strtoul(text + strlen("pages "), NULL, 10);
			ring = ring_buffer_alloc(pages * BUF_PAGE_SIZE, RB_FL_OVERWRITE);
			cpu = ring->buffers[0];
			spare = aligned_alloc(4096, 4096);
			if (cpu->nr_pages != pages)
				die("the ring has another number of pages");
		} else if (line > 4) {
			obey(text);
		}
	}
	if (!want_pages)
		print_collector();
	if (shim_warnings)
		fprintf(stderr, "replay: the kernel warned %lu times\n", shim_warnings);
	return shim_warnings ? 3 : 0;
}

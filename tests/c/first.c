// What comes before the first call, as C and as C++: handles of the header's initialisers are new, and each answer has
// a text of its own. ANSWERS is a list of the header's, made by tests/c/embedding.
#include "tracering.h"

#include <stdio.h>
#include <string.h>

static struct tracering_writer writers[2] = {TRACERING_WRITER_INIT, TRACERING_WRITER_INIT};

static int are_new(void)
{
    struct tracering_writer w = TRACERING_WRITER_INIT;
    struct tracering_reader r = TRACERING_READER_INIT;
    struct tracering_collector c = TRACERING_COLLECTOR_INIT;
    struct tracering_fleet f = TRACERING_FLEET_INIT;
    struct tracering_refused refused;
    int bad = tracering_depth(&writers[1]) != TRACERING_ABSENT || w.closes || w.in_call || r.in_call || c.in_call;
    bad += f.in_call != 0;
    bad += tracering_refused(&w, &refused) != TRACERING_DONE;
    bad += refused.busy || refused.too_deep || refused.too_long || refused.late_moment;
    bad += refused.crowded || refused.worn;
    bad += tracering_new(&w, &r, 0, 2, 64) != TRACERING_DONE || tracering_collector_new(&c) != TRACERING_DONE;
    bad += tracering_writer_free(&w, NULL) != TRACERING_DONE || tracering_reader_free(&r) != TRACERING_DONE;
    bad += tracering_fleet_new(&f) != TRACERING_DONE || tracering_fleet_free(&f) != TRACERING_DONE;
    return bad + (tracering_collector_free(&c) != TRACERING_DONE);
}

static int have_texts(void)
{
    static const int answers[] = {ANSWERS};
    enum { COUNT = sizeof answers / sizeof *answers };
    int bad = 0;
    for (int k = 0; k < COUNT; k++) {
        const char *text = tracering_text(answers[k]);
        bad += strlen(text) == 0 || strcmp(text, tracering_text(INT32_MAX)) == 0;
        for (int before = 0; before < k; before++)
            bad += answers[k] == answers[before] || strcmp(text, tracering_text(answers[before])) == 0;
    }
    return bad + (COUNT < 48);
}

int main(void)
{
    int fresh = are_new(), texts = have_texts();
    if (fresh || texts)
        fprintf(stderr, "first: of new handles %d are wrong, of the answers' texts %d\n", fresh, texts);
    return fresh || texts;
}

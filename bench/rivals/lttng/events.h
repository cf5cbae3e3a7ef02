// The one event of main.c, as LTTng-UST wants it defined.
#undef LTTNG_UST_TRACEPOINT_PROVIDER
#define LTTNG_UST_TRACEPOINT_PROVIDER embed

#undef LTTNG_UST_TRACEPOINT_INCLUDE
#define LTTNG_UST_TRACEPOINT_INCLUDE "events.h"

#if !defined(EVENTS_H) || defined(LTTNG_UST_TRACEPOINT_HEADER_MULTI_READ)
#define EVENTS_H

#include <lttng/tracepoint.h>
#include <stdint.h>

LTTNG_UST_TRACEPOINT_EVENT(embed, record,
    LTTNG_UST_TP_ARGS(const uint8_t *, payload, uint16_t, len),
    LTTNG_UST_TP_FIELDS(lttng_ust_field_sequence(uint8_t, payload, payload, uint16_t, len)))

#endif

#include <lttng/tracepoint-event.h>

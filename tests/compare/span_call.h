/* One call for a span (change request #107), and all that is checked of its answer. */
#ifndef SPAN_CALL_H
#define SPAN_CALL_H

#include "compare.h"

enum {
    SPAN_ROW = 2,               /* the least and the greatest index */
    WIDEST = 200                /* "42 y2 - y1 above 200" */
};

struct span { int32_t least, greatest; };

/* Zeros stand for the row of refused limits. */
struct span ask_span(const struct limits *s);

/* Ends the run unless there was each kind of answered spans, each two questions that
   refuse the same limits, and each limit of theirs with a thousandth beyond it. */
void check_spans_met(void);

#endif

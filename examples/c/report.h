/* Writes what a device answers and what a driver has to do for it, in the form of docs/report.md. */
#ifndef WETHLORN_REPORT_H
#define WETHLORN_REPORT_H
#include "wethlorn.h"
#include <stdio.h>

/* A report that is being written: its two parts, in memory, and how many steps the trace has. */
typedef struct report {
    FILE *history, *trace;
    char *history_text, *trace_text;
    size_t history_size, trace_size;
    uint64_t entries, steps;
} report;

/* Begins a report. False: no memory. */
int report_begin(report *it);

/* Writes the entry of a call, with the promises that it settles, and drains what it adds to the trace. `word` is the call's. False: what
 * the device tells does not fit together. */
int report_call(report *it, wethlorn_device *device, uint32_t who, const char *word, const wethlorn_reply *reply);

/* Ends a report, and gives its whole text, which the caller frees; null: no memory. */
char *report_end(report *it);

#endif

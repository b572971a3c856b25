/* How far a long work is, on standard error where that is a terminal: every second, in one line. */
#include <inttypes.h>
#include <stdio.h>
#include <time.h>
#include <unistd.h>
#include "progress.h"

/* whether the terminal stands at the beginning of a line of progress; whether it is to have none */
static int line_is_open, is_quiet;

double seconds(void) {
    struct timespec t;
    clock_gettime(CLOCK_MONOTONIC, &t);
    return (double)t.tv_sec + (double)t.tv_nsec / 1e9;
}

void progress_quiet(void) { is_quiet = 1; }

void progress_begin(Progress *progress, uint64_t total) {
    progress->begun = progress->told = seconds();
    progress->total = total;
    progress->shown = !is_quiet && isatty(STDERR_FILENO);
}

/* Whether something is to be shown now, which is so once in a second: the seconds since the begin, or 0. */
static double is_time(Progress *progress) {
    double at = progress->shown ? seconds() : progress->told;
    if (at - progress->told < 1) return 0;
    progress->told = at;
    line_is_open = 1;
    return at - progress->begun;
}

void progress_tell(Progress *progress, uint64_t records, uint64_t bytes) {
    char all[32] = "";
    double past = is_time(progress);
    if (past == 0) return;
    if (progress->total > 0) snprintf(all, sizeof all, " of %" PRIu64, progress->total);
    fprintf(stderr, "keeper: %" PRIu64 "%s records, %.1f MB, %.0f records a second   \r", records, all, (double)bytes / 1e6, (double)records / past);
}

/* Which file it is, is said where there may be others. */
void progress_tell_reading(Progress *progress, const Reading *reading) {
    char file[64] = "", length[32] = "";
    double past = is_time(progress);
    if (past == 0) return;
    if (progress->total == 0) snprintf(file, sizeof file, "file %" PRIu64 ", ", reading->number);
    if (progress->total > 1) snprintf(file, sizeof file, "file %" PRIu64 " of %" PRIu64 ", ", reading->number, progress->total);
    if (reading->length > 0) snprintf(length, sizeof length, " of %.1f", (double)reading->length / 1e6);
    fprintf(stderr, "keeper: %s%.1f%s MB, %.1f MB a second   \r", file, (double)reading->bytes / 1e6, length, (double)reading->all / 1e6 / past);
}

void progress_end(void) {
    if (line_is_open) fputc('\n', stderr);
    line_is_open = 0;
}

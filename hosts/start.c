/* How the program begins and is stopped: standard streams that are open, signals that become words. */
#define _GNU_SOURCE
#include <errno.h>
#include <fcntl.h>
#include <poll.h>
#include <signal.h>
#include <string.h>
#include <time.h>
#include <unistd.h>
#include "say.h"
#include "start.h"

/* ---- streams */

/* Read where it is to be written, and the other way round: what uses a stream that was closed fails, as it would have. */
static void open_where_closed(int stream) {
    if (fcntl(stream, F_GETFD) >= 0 || errno != EBADF) return;
    if (open("/dev/null", stream == STDIN_FILENO ? O_WRONLY : O_RDONLY) != stream) _exit(FAILED);
}

/* ---- signals */

static volatile sig_atomic_t stopped_by;

static void remember(int signal) { stopped_by = signal; }

/* The map of a file ends where the file was cut behind its back, or its disk cannot be read. */
static void map_is_gone(int signal) {
    static const char words[] = "keeper: a file was cut while it was in use, or its disk cannot be read or is full: nothing more was appended\n";
    (void)signal;
    ssize_t written = write(STDERR_FILENO, words, sizeof words - 1);
    (void)written;
    _exit(FAILED);
}

static void handle(int signal, void (*handler)(int)) {
    struct sigaction action = {.sa_handler = handler};
    sigemptyset(&action.sa_mask);
    sigaction(signal, &action, NULL);
}

void start(void) {
    for (int stream = 0; stream <= STDERR_FILENO; stream++) open_where_closed(stream);
    handle(SIGPIPE, SIG_IGN);
    handle(SIGXFSZ, SIG_IGN);
    handle(SIGBUS, map_is_gone);
}

static const int stops[] = {SIGINT, SIGTERM, SIGHUP};

/* A signal that is ignored, as nohup has it, stays so. */
void watch_for_stop(void) {
    struct sigaction now;
    for (size_t i = 0; i < sizeof stops / sizeof *stops; i++)
        if (sigaction(stops[i], NULL, &now) == 0 && now.sa_handler != SIG_IGN) handle(stops[i], remember);
}

const char *stop_asked(void) {
    if (stopped_by == 0) return NULL;
    return stopped_by == SIGINT ? "SIGINT" : stopped_by == SIGTERM ? "SIGTERM" : "SIGHUP";
}

/* The signals are held back from the look at the flag to the wait, so that none can come between. */
Wait wait_for_input(int file, int milliseconds) {
    struct pollfd input = {.fd = file, .events = POLLIN};
    struct timespec most = {milliseconds / 1000, milliseconds % 1000 * 1000000L};
    sigset_t held, before;
    sigemptyset(&held);
    for (size_t i = 0; i < sizeof stops / sizeof *stops; i++) sigaddset(&held, stops[i]);
    sigprocmask(SIG_BLOCK, &held, &before);
    int got = stopped_by ? -1 : ppoll(&input, 1, milliseconds < 0 ? NULL : &most, &before);
    sigprocmask(SIG_SETMASK, &before, NULL);
    if (stopped_by) return STOP;
    return got == 0 ? NOT_YET : THERE;
}

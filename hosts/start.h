/* How the program begins and is stopped: standard streams that are open, signals that become words. */
#ifndef START_H
#define START_H

/* Called before anything else. Standard streams that are closed are opened on /dev/null, so that no other file gets their number; what a signal
   would end without a word is an error or has words. */
void start(void);

/* From now on SIGINT, SIGTERM and SIGHUP end no read in silence: they are remembered, and a wait for input ends. */
void watch_for_stop(void);

/* The signal that asked to stop, by name; NULL where none did. */
const char *stop_asked(void);

/* Waits until a read would not wait. A time below 0 is any time. */
typedef enum { THERE, NOT_YET, STOP } Wait;
Wait wait_for_input(int file, int milliseconds);

#endif

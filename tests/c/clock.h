#ifndef CLOCK_H
#define CLOCK_H

/* Seconds from some moment on. */
double now(void);

#endif

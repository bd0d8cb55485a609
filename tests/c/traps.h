/* Breakpoints in the library, and handlers of signals that have a stack of their own. */
#ifndef TRAPS_H
#define TRAPS_H

#include <signal.h>
#include <stdint.h>

/* What stands in the place of an instruction's first byte, on x86-64. */
enum { BREAKPOINT = 0xcc };

typedef void (*signal_handler)(int number, siginfo_t *info, void *context);

/* The handler runs on a stack that no call of the library uses. */
void handle_signal(int number, signal_handler handler);

/* Makes the code from the first to the last address writable; whether the system allows it. */
int open_code(uintptr_t first, uintptr_t last);

#endif

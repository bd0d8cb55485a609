#define _GNU_SOURCE /* for sigaltstack beside C99 */

#include "traps.h"

#include <string.h>
#include <sys/mman.h>
#include <unistd.h>

static void have_own_stack(void)
{
    static char bytes[1 << 16];
    stack_t own;

    memset(&own, 0, sizeof own);
    own.ss_sp = bytes;
    own.ss_size = sizeof bytes;
    sigaltstack(&own, NULL);
}

void handle_signal(int number, signal_handler handler)
{
    struct sigaction action;

    have_own_stack();
    memset(&action, 0, sizeof action);
    action.sa_sigaction = handler;
    action.sa_flags = SA_SIGINFO | SA_ONSTACK;
    sigaction(number, &action, NULL);
}

int open_code(uintptr_t first, uintptr_t last)
{
    uintptr_t page = (uintptr_t)sysconf(_SC_PAGESIZE), low = first & ~(page - 1);

    return mprotect((void *)low, (last | (page - 1)) + 1 - low, PROT_READ | PROT_WRITE | PROT_EXEC) == 0;
}

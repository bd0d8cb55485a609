/* Libraries that are wrong in one thing, each of which the harness has to catch. */
#ifndef FAULTS_H
#define FAULTS_H

#include "calls.h"

struct fault {
    const char *name;
    uint32_t (*call)(const struct request *);
};

extern const struct fault FAULTS[];
extern const unsigned FAULT_COUNT;

#endif

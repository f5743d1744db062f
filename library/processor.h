/* SPDX-License-Identifier: Apache-2.0. Copyright 2026 Archcaraway maintainers. */
#ifndef ARCHCARAWAY_PROCESSOR_H
#define ARCHCARAWAY_PROCESSOR_H

#include <stdbool.h>

/* Whether the processor has the instructions with which the library is compiled. The library links
 * itself into one object, in which this name can't be seen from outside. */
bool processor_fits(void);

#endif

/* What lwIP asks of a compiler and a system: none of its messages is printed, and a failed assertion ends the program. */
#ifndef CC_H
#define CC_H

#include <stdlib.h>

#define LWIP_PLATFORM_DIAG(message)
#define LWIP_PLATFORM_ASSERT(message) abort()
#define LWIP_RAND() 1u

#endif

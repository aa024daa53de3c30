/* What examples/van.c takes of the C library, where the machine has no headers for x86-64. */
#include "../../../tools/system.h"

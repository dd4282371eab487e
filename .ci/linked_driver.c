/* driver.c over the library that is on its way. */
#include "linked_names.h"
#include "driver.c"

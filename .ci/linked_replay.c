/* Replays a file of calls on an image with links, by the library that is on its way. */
#include "linked_names.h"
#include "../bench/twin_replay.c"

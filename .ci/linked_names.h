/* The functions of the library that is on its way (crates/trial), which have names of their own, under the port's names; and the image with links. */
#define ordizgum_image_length ordizgum_linked_image_length
#define ordizgum_fresh ordizgum_linked_fresh
#define ordizgum_sound ordizgum_linked_sound
#define ordizgum_call ordizgum_linked_call
#define ordizgum_next_wake_up ordizgum_linked_next_wake_up
#include "../bench/linked.h"

/*
   The numbers of the header against those of the rules, when the outside check
   is compiled: brute force and the plain reader have numbers of their own and never
   read the header.
*/
#include "twistdory.h"

_Static_assert(TWISTDORY_NORMAL == 0 && TWISTDORY_PULLUP == 1 && TWISTDORY_INPUT == 2,
               "kinds");
_Static_assert(TWISTDORY_GROUND == 3 && TWISTDORY_POWER == 4, "rails");
_Static_assert(TWISTDORY_0 == 0 && TWISTDORY_1 == 1 && TWISTDORY_X == 2, "states");
_Static_assert(TWISTDORY_N == 0 && TWISTDORY_P == 1 && TWISTDORY_D == 2, "types");
_Static_assert(TWISTDORY_MIN_NODES == 1 && TWISTDORY_MAX_NODES == 4096, "nodes");
_Static_assert(TWISTDORY_MAX_TRANSISTORS == 8192, "transistors");
_Static_assert(TWISTDORY_MAX_CHANGES == 4096, "changes");
_Static_assert(TWISTDORY_DEFAULT_LIMIT == 1000 && TWISTDORY_MAX_LIMIT == 10000, "limit");
_Static_assert(TWISTDORY_WORK_CELLS(4096, 8192) == 32768 && TWISTDORY_WORK_CELLS(3, 1) == 14,
               "work area");
_Static_assert(TWISTDORY_ANSWER == 0 && TWISTDORY_PLACE == 1 && TWISTDORY_FIRST_COUNT == 2
               && TWISTDORY_SECOND_COUNT == 3, "places of the four numbers");
_Static_assert(TWISTDORY_DONE == 0 && TWISTDORY_SIZE == 1 && TWISTDORY_LIMIT == 2
               && TWISTDORY_KIND == 3 && TWISTDORY_WIRE == 4 && TWISTDORY_STATE == 5
               && TWISTDORY_CHANGE == 6 && TWISTDORY_START == 7 && TWISTDORY_OSCILLATES == 8
               && TWISTDORY_TEXT == 9, "answers");
_Static_assert(TWISTDORY_MAX_TEXT == 65535 && TWISTDORY_MAX_NAME == 63, "texts");

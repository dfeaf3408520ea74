/* Compiled and never run: the structs have the bytes that the library and the Rust bindings take for granted. */
#include "reefnettle.h"

#define AT(type, field, byte) _Static_assert(offsetof(type, field) == (byte), #type "." #field)
#define BYTES(type, bytes) _Static_assert(sizeof(type) == (bytes), #type)

BYTES(size_t, 8);
BYTES(reefnettle_hpa, 8);
BYTES(reefnettle_gpa, 8);
BYTES(reefnettle_frame, 8);
BYTES(reefnettle_key, 8);
BYTES(reefnettle_level, 8);

BYTES(reefnettle_gauge, 32);
AT(reefnettle_gauge, raise, 0);
AT(reefnettle_gauge, clear, 8);
AT(reefnettle_gauge, fill, 16);
AT(reefnettle_gauge, lamp, 24);

BYTES(reefnettle_request, 64);
AT(reefnettle_request, call, 0);
AT(reefnettle_request, domain, 8);
AT(reefnettle_request, gpa, 16);
AT(reefnettle_request, level, 24);
AT(reefnettle_request, frame, 32);
AT(reefnettle_request, key, 40);
AT(reefnettle_request, raise, 48);
AT(reefnettle_request, clear, 56);

BYTES(reefnettle_answer, 48);
AT(reefnettle_answer, number, 0);
AT(reefnettle_answer, kind, 8);
AT(reefnettle_answer, owner, 16);
AT(reefnettle_answer, level, 24);
AT(reefnettle_answer, state, 32);
AT(reefnettle_answer, hpa, 40);

BYTES(reefnettle_run, 48);
AT(reefnettle_run, gauge, 0);
AT(reefnettle_run, used, 32);
AT(reefnettle_run, lent, 40);
AT(reefnettle_run, marked, 41);

BYTES(reefnettle_next_answer, 96);
AT(reefnettle_next_answer, answer, 0);
AT(reefnettle_next_answer, run, 48);

_Static_assert(REEFNETTLE_LENT_BYTES(512, 1, 4) == 14384, "least sizes");
_Static_assert(REEFNETTLE_LENT_BYTES(1024, 4, 12) == 41128, "the program's sizes");
_Static_assert(REEFNETTLE_LENT_BYTES(REEFNETTLE_FRAMES_MOST, REEFNETTLE_RECORDS_MOST, REEFNETTLE_TABLES_MOST) == 789032,
               "largest sizes");

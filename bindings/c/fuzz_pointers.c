/* Calls with a null pointer. */
#include "fuzz.h"
#include "each_call.h"

void call_with_null(world *w, program *it) {
    arguments a = fresh_arguments();
    size_t call = next_byte(it) % EACH_LEN;
    unsigned which = next_byte(it) % EACH[call].pointers;
    a.column = next_number(it, w->columns);
    a.place = next_number(it, w->places);
    a.group = next_number(it, w->places);
    a.aggregate = next_number(it, 5);
    a.job = next_byte(it);
    uint32_t code = spoiled_call(call, &w->table, &a, which, false);
    HOLDS(code == (w->is_open && !spoiled.is_handle ? FC_BAD_ARGUMENT : FC_CLOSED));
    HOLDS(is_unwritten(&a) && !was_refused());
}

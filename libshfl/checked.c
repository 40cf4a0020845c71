/* In the checked build (SHFL_CHECKED) a call that no right program makes ends the process, with the lock's address; else it is answered.
 * That the seat refuses it is proved; the message, and the list of what a thread has, is this file's. */
#include <stdio.h>
#include <stdlib.h>
#include <string.h>
#include "inside.h"

SHFL_COLD int shfl_refuse(int error, const void *lock, const char *what) {
#ifdef SHFL_CHECKED
    fprintf(stderr, "libshfl: %s: %p\n", what, lock);
    abort();
#endif
    (void)lock;
    (void)what;
    return error;
}

/* The thread has one lock more already. Where there is no memory the lock isn't noted, and the next one is where there is again. */
void shfl_note_taken(struct shfl_thread *me, const void *lock) {
    if (me->holding > me->held_room) {
        uint32_t room = 2 * me->holding + 16;
        const void **held = realloc(me->held, room * sizeof *held);
        if (!held) return;
        memset(held + me->held_room, 0, (room - me->held_room) * sizeof *held);
        me->held = held;
        me->held_room = room;
    }
    me->held[me->holding - 1] = lock;
}

/* The thread has one lock less already. */
void shfl_note_given(struct shfl_thread *me, const void *lock) {
    for (uint32_t k = 0; k <= me->holding && k < me->held_room; k++) {
        if (me->held[k] != lock) continue;
        if (me->holding < me->held_room) me->held[k] = me->held[me->holding];
        return;
    }
}

/* What happens at one lock, in order, for a client of the control socket: it begins a record, fetches what there is again and again, and
 * says when it needs no more; where it doesn't ask for two seconds the record ends by itself. All calls are the socket's thread's. */
#ifndef SHFL_RECORD_H
#define SHFL_RECORD_H
#include "inside.h"

#define SHFL_RECORD_MOST_MS 600000

struct shfl_happened {
    uint64_t at; /* nanoseconds since the record began */
    uint64_t about; /* of a question: the waiter's attributes */
    uint32_t thread, tid, socket;
    uint8_t event; /* enum shfl_event */
};

/* Where a reader is: the number of the next event, and how many it has missed. */
struct shfl_reader { uint64_t next, lost; };

int shfl_record_begin(uint32_t lock, const void *address, uint64_t milliseconds, uint32_t *id); /* EBUSY: there is another record */
int shfl_record_renew(uint32_t id); /* the reader is there still. ENOENT: no such record */
bool shfl_record_next(struct shfl_reader *reader, struct shfl_happened *out);
bool shfl_record_is_over(void); /* no more events come */
int shfl_record_forget(uint32_t id);
int shfl_record_left(uint64_t now); /* milliseconds until it is to be called again, or -1; ends a record that nobody reads */
void shfl_record_forked(void);
#endif

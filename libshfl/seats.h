/* The calls of the proved library (crates/shfl_seats_c). Each judges its numbers; what C owes is that the seat is open and in one call at
 * a time. */
#ifndef SHFL_SEATS_H
#define SHFL_SEATS_H
#include <stdbool.h>
#include <stddef.h>
#include <stdint.h>

/* Null, or what the library owns. C never reads it. */
struct shfl_seat { void *at; };

enum shfl_answer { SHFL_DONE, SHFL_BUSY, SHFL_HELD, SHFL_NOT_HELD, SHFL_BAD, SHFL_NO_MEMORY };
enum shfl_progress { SHFL_RESTS, SHFL_WENT_ON, SHFL_LOOKS_AGAIN, SHFL_ENDED_ROUND };
enum shfl_watched { SHFL_WATCH_NOBODY, SHFL_WATCH_OWN_TURN, SHFL_WATCH_GROUPED, SHFL_WATCH_READY };
enum shfl_asked { SHFL_ASK_NOTHING, SHFL_ASK_SKIP, SHFL_ASK_SHOULD };
enum shfl_form { SHFL_SPIN, SHFL_RW, SHFL_PARK, SHFL_RW_PARK };

struct shfl_ask { uint64_t waiter; uint16_t batch; uint8_t kind; };
struct shfl_watch { uint32_t whom; uint8_t kind; };
struct shfl_verdict { uint32_t slot; uint8_t fault, hook, reg; };

uint8_t shfl_seats_open(uint32_t locks, bool spread, uint8_t form, uint16_t limit, struct shfl_seat *seats, size_t count);
void shfl_seat_close(struct shfl_seat *seat);
uint8_t shfl_seat_attempt(struct shfl_seat *seat, uint32_t lock, bool shared);
uint8_t shfl_seat_acquire(struct shfl_seat *seat, uint32_t lock, bool shared);
uint8_t shfl_seat_step(struct shfl_seat *seat, bool choice);
uint8_t shfl_seat_release(struct shfl_seat *seat, uint32_t lock);
bool shfl_seat_disable_stealing(struct shfl_seat *seat, uint32_t lock);
bool shfl_seat_set_attr(struct shfl_seat *seat, uint64_t word);
uint8_t shfl_seat_hold(struct shfl_seat *seat, uint32_t lock);
struct shfl_ask shfl_seat_ask(struct shfl_seat *seat);
struct shfl_watch shfl_seat_watch(struct shfl_seat *seat);
struct shfl_verdict shfl_seat_attach(struct shfl_seat *seat, uint8_t profile, const uint8_t *should, size_t should_length,
                                     const uint8_t *skip, size_t skip_length);
void shfl_seat_detach(struct shfl_seat *seat);
bool shfl_seat_follow(struct shfl_seat *seat, struct shfl_seat *other);
bool shfl_seat_answer(struct shfl_seat *seat);
#endif

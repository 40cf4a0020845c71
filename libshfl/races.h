/* What those who look for races are told in the build for them (SHFL_ANNOTATE): ThreadSanitizer, helgrind and drd. They don't know that taking a
 * lock comes after giving it back, and helgrind and drd look at the library's own words as at the program's. In other builds this is nothing. Nothing
 * of it is proved. */
#ifndef SHFL_RACES_H
#define SHFL_RACES_H
#include <stdbool.h>
#include <stddef.h>
#include <stdint.h>

#ifdef SHFL_ANNOTATE
/* Before and after a call that takes the lock of this number word, or tries to. */
void shfl_races_taking(uint32_t *word, bool shared, bool tries);
void shfl_races_taken(uint32_t *word, bool shared, bool tries, int error);
/* Before and after a call that gives it back; between them the first one's answer. */
int shfl_races_giving(uint32_t *word);
void shfl_races_given(uint32_t *word, int held);
/* The lock isn't any more. */
void shfl_races_ended(uint32_t *word);
/* These bytes are the library's own, where threads meet in atomic operations. */
void shfl_races_own(void *at, size_t size);
/* From a call on that takes memory which another thread may free, or frees such, and after it. */
void shfl_races_look_away(void);
void shfl_races_look_again(void);
#else
static inline void shfl_races_taking(uint32_t *word, bool shared, bool tries) { (void)word, (void)shared, (void)tries; }
static inline void shfl_races_taken(uint32_t *word, bool shared, bool tries, int error) { (void)word, (void)shared, (void)tries, (void)error; }
static inline int shfl_races_giving(uint32_t *word) { return (void)word, 0; }
static inline void shfl_races_given(uint32_t *word, int held) { (void)word, (void)held; }
static inline void shfl_races_ended(uint32_t *word) { (void)word; }
static inline void shfl_races_own(void *at, size_t size) { (void)at, (void)size; }
static inline void shfl_races_look_away(void) {}
static inline void shfl_races_look_again(void) {}
#endif
#endif

/* Policies of classes. Proved is that a policy is used only after its programs were accepted, and answers what they mean
 * (crates/shfl_policy). That a class's threads follow its policy, from their next round on, is this file's. */
#include <stdlib.h>
#include <string.h>
#include "inside.h"
#include "races.h"

/* Goes over to the class's policy as it is now, where the seat follows another one, or another seat of the thread did last. */
static void follow(struct shfl_thread *me, struct shfl_seat *seat, struct shfl_class *its) {
    uint32_t which = (uint32_t)(its - shfl_process.classes) + 1;
    shfl_store(&me->in_round, which);
    if (me->follows == which && me->version == shfl_load(&its->version) && me->follower == seat) return;
    shfl_guard_lock(&its->guard);
    bool done = shfl_seat_follow(seat, &its->seat);
    shfl_store(&me->version, shfl_load(&its->version));
    shfl_guard_unlock(&its->guard);
    if (!done) shfl_seat_detach(seat);
    me->follower = seat;
    shfl_store(&me->follows, done ? which : 0);
}

/* The first question of a round is whether to skip it: the whole round goes by one version, or by none where the class has none then. */
bool shfl_answer(struct shfl_thread *me, struct shfl_seat *seat, uint32_t lock, struct shfl_class *its) {
    struct shfl_ask ask = shfl_seat_ask(seat);
    if (ask.kind == SHFL_ASK_NOTHING) return false;
    if (ask.kind == SHFL_ASK_SKIP && shfl_load(&its->attached)) follow(me, seat, its);
    else if (ask.kind == SHFL_ASK_SKIP) __atomic_store_n(&me->in_round, 0, __ATOMIC_RELEASE);
    if (me->in_round == 0) return false;
    bool yes = shfl_seat_answer(seat), skips = ask.kind == SHFL_ASK_SKIP;
    if (shfl_load(&me->unusual) & SHFL_IS_WATCHED)
        shfl_record(me, lock, yes ? (skips ? SHFL_YES_SKIP : SHFL_YES_SHOULD) : skips ? SHFL_ASKS_SKIP : SHFL_ASKS_SHOULD, ask.waiter);
    struct shfl_stat *counts = shfl_counts_of(me, lock);
    shfl_more(&counts->questions, 1);
    shfl_more(&counts->yes, yes);
    shfl_more(&counts->skipped, yes && skips);
    return yes;
}

/* A copy of the programs that were loaded, for who wants to have them back. False: no memory. */
static bool keep(struct shfl_programs *kept, const uint8_t *should, const uint8_t *skip) {
    size_t whole = (size_t)kept->should + kept->skip;
    kept->bytes = whole ? calloc(1, whole) : NULL;
    if (!kept->bytes) return whole == 0;
    shfl_races_own(kept->bytes, whole);
    memcpy(kept->bytes, should, kept->should);
    memcpy(kept->bytes + kept->should, skip, kept->skip);
    return true;
}

/* The class goes over to the policy that was loaded. */
static int publish(struct shfl_class *its, const struct shfl_programs *programs) {
    shfl_guard_lock(&its->guard);
    bool done = shfl_seat_follow(&its->seat, &shfl_process.loading);
    uint8_t *over = done ? its->programs.bytes : programs->bytes;
    if (done) {
        its->programs = *programs;
        __atomic_fetch_add(&its->version, 1, __ATOMIC_SEQ_CST);
        shfl_store(&its->attached, programs->bytes != NULL);
    }
    shfl_guard_unlock(&its->guard);
    free(over);
    return done ? 0 : EAGAIN;
}

size_t shfl_class_programs(unsigned class_of, struct shfl_programs *out, uint8_t *room, size_t size) {
    struct shfl_class *its = shfl_class_at(class_of);
    shfl_guard_lock(&its->guard);
    *out = its->programs;
    size_t whole = (size_t)out->should + out->skip;
    if (whole > 0 && whole <= size) memcpy(room, out->bytes, whole);
    shfl_guard_unlock(&its->guard);
    return whole;
}

/* Of a program that is too long the rest isn't looked at. */
static size_t looked_at(size_t length) { return length < SHFL_PROGRAM_MOST ? length : SHFL_PROGRAM_MOST; }

/* The class goes over to these programs, if they are accepted. */
static int give_policy(struct shfl_class *its, struct shfl_programs *programs, const uint8_t *should, const uint8_t *skip, struct shfl_verdict *verdict) {
    int error = shfl_open_process();
    if (error) return error;
    shfl_guard_lock(&shfl_process.is_loading);
    *verdict = shfl_seat_attach(&shfl_process.loading, programs->profile, should, programs->should, skip, programs->skip);
    if (verdict->fault == 0) error = keep(programs, should, skip) ? publish(its, programs) : ENOMEM;
    else error = verdict->fault == SHFL_FAULT_NO_MEMORY ? ENOMEM : EINVAL;
    shfl_seat_detach(&shfl_process.loading);
    shfl_guard_unlock(&shfl_process.is_loading);
    return error;
}

int shfl_class_policy(unsigned class_of, unsigned profile, const uint8_t *should, size_t should_length, const uint8_t *skip,
                      size_t skip_length, struct shfl_fault *fault) {
    static const uint8_t none;
    if (class_of >= SHFL_CLASSES || profile < 1 || profile > 2) return EINVAL;
    if ((!should && should_length) || (!skip && skip_length)) return EINVAL;
    struct shfl_programs programs = {NULL, (uint16_t)looked_at(should_length), (uint16_t)looked_at(skip_length), (uint8_t)profile};
    struct shfl_verdict verdict = {0, 0, 0, 0};
    shfl_races_look_away();
    int error = give_policy(shfl_class_at(class_of), &programs, should ? should : &none, skip ? skip : &none, &verdict);
    shfl_races_look_again();
    if (fault && (!error || verdict.fault)) *fault = (struct shfl_fault){verdict.slot, verdict.fault, verdict.hook, verdict.reg};
    return error;
}

/* Nothing of it takes memory. Before the first arena is open no class has a seat. */
int shfl_class_detach(unsigned class_of) {
    if (class_of >= SHFL_CLASSES) return EINVAL;
    struct shfl_class *its = shfl_class_at(class_of);
    shfl_races_look_away();
    shfl_guard_lock(&its->guard);
    bool is_open = shfl_load(&shfl_process.lock_count) > 0; /* as it is when this policy ends: another thread may have opened it and given one */
    uint8_t *over = its->programs.bytes;
    if (is_open) shfl_seat_detach(&its->seat);
    its->programs = (struct shfl_programs){NULL, 0, 0, 0};
    __atomic_fetch_add(&its->version, 1, __ATOMIC_SEQ_CST);
    shfl_store(&its->attached, 0);
    shfl_guard_unlock(&its->guard);
    free(over);
    shfl_races_look_again();
    return 0;
}

/* Whether no thread is in a round that an older version answers. A thread says that it is in a round before it looks for the version. */
static bool is_drained(uint32_t which, uint32_t version) {
    for (uint32_t k = 0; k < shfl_load(&shfl_process.threads_seen); k++) {
        struct shfl_thread *thread = &shfl_process.threads[k];
        if (shfl_load(&thread->in_round) != which) continue;
        if (shfl_load(&thread->follows) != which || shfl_load(&thread->version) != version) return false;
    }
    return true;
}

int shfl_class_sum(unsigned class_of, struct shfl_class_stat *out, struct shfl_waits *waits) {
    if (class_of >= SHFL_CLASSES || !out) return EINVAL;
    int error = shfl_open_process();
    if (error) return error;
    struct shfl_class *its = shfl_class_at(class_of);
    *out = (struct shfl_class_stat){.version = shfl_load(&its->version), .attached = (uint8_t)shfl_load(&its->attached)};
    out->drained = is_drained(class_of + 1, out->version);
    *waits = (struct shfl_waits){0};
    shfl_sum_class(class_of, out, waits);
    return 0;
}

int shfl_class_stat(unsigned class_of, struct shfl_class_stat *out) {
    struct shfl_waits waits;
    return shfl_class_sum(class_of, out, &waits);
}

/* How threads wait at the lock for C, by construction: waits. The linker puts a spy before shfl_advance, sched_yield and syscall
 * (tests/c.sh and waits_spy.h), which sees each step's outcome and each giving away of the processor. */
#include "waits_spy.h"
#include <stdio.h>
#include <stdlib.h>

enum { THREADS = 6, STORM = 4 };
static const char *const forms[] = {"spin", "rw", "park", "rw park"};
/* r2 = the asking pass's socket; r1 = the waiter's; yes where they are the same */
static const char by_socket[] = "61120000000000006111040000000000b7000000010000001d21010000000000b7000000000000009500000000000000";
static int failed;

static void expect(bool right, const char *what, int form) {
    if (right) return;
    printf("waits, %s: %s\n", forms[form], what);
    failed = 1;
}

static void open_all_by(int form, uint16_t limit) {
    static const uint16_t sockets[PASSES] = {0, 1, 0, 1, 0, 1, 0};
    uint64_t attrs[PASSES];
    for (int k = 0; k < PASSES; k++) attrs[k] = shfl_attr(sockets[k], 0, 0, 0);
    if (!shfl_open(attrs, PASSES, (uint8_t)form, limit, passes, PASSES)) exit(2);
    for (int k = 0; k < PASSES; k++) {
        vain[k] = 0;
        called_at[k] = NOT_YET;
    }
    head_vain = alone = found_open = stays = stayed = 0;
}

static void open_all(int form) { open_all_by(form, 1024); }

static void close_all(void) {
    for (int k = 0; k < PASSES; k++) shfl_close(&passes[k]);
}

static void advance(int pass, int steps) {
    for (; steps > 0; steps--) shfl_advance(&passes[pass], false);
}

/* A thousand writers, and readers where there are some, try to come past the head, one after the other. */
static void nobody_passes(int form) {
    int won = 0, shared = 0;
    for (int k = 0; k < 1000; k++) {
        if (shfl_trylock(&passes[2])) {
            won++;
            shfl_unlock(&passes[2]);
        }
        if (form % 2 == 1 && shfl_tryrdlock(&passes[3])) {
            shared++;
            shfl_unlock(&passes[3]);
        }
    }
    expect(won == 0, "a trylock comes past the head", form);
    expect(shared == 0, "a reader comes past the head", form);
}

/* A pass that leaves last enables stealing after the next head has disabled it. The head disables it again, and nobody comes past it. */
static void head_is_first(int form) {
    open_all(form);
    expect(shfl_trylock(&passes[2]), "a free lock is taken at once", form);
    expect(!shfl_trylock(&passes[2]) && shfl_held(&passes[2]), "a trylock of the holder is refused, and it still holds", form);
    shfl_acquire(&passes[0]);
    while (shfl_advance(&passes[0], false) == SHFL_WENT_ON) {}
    shfl_unlock(&passes[2]);
    advance(0, 4); /* it looks, has the word, has no successor, has emptied the queue */
    shfl_acquire(&passes[1]);
    while (shfl_advance(&passes[1], false) != SHFL_IN_VAIN) {}
    advance(0, 1); /* it enables stealing */
    expect(shfl_held(&passes[0]), "the first one holds", form);
    expect(shfl_advance(&passes[1], false) == SHFL_IN_VAIN_OPEN, "the head finds stealing enabled", form);
    expect(shfl_disable_stealing(&passes[1]), "the head disables it", form);
    expect(!shfl_disable_stealing(&passes[2]), "another pass doesn't", form);
    shfl_unlock(&passes[0]);
    nobody_passes(form);
    shfl_drive(&passes[1]);
    expect(shfl_held(&passes[1]), "the head holds", form);
    shfl_unlock(&passes[1]);
    close_all();
}

static void *lock_once(void *arg) {
    shfl_lock(arg);
    shfl_unlock(arg);
    return NULL;
}

static void await(_Atomic int *count, int least) {
    while (*count < least) usleep(100);
}

/* The same by the loop: once it has found stealing enabled and looked again, the head stays where it is while others try. */
static void head_disables(int form) {
    pthread_t head;
    open_all(form);
    shfl_lock(&passes[2]);
    shfl_acquire(&passes[0]);
    while (shfl_advance(&passes[0], false) == SHFL_WENT_ON) {}
    shfl_unlock(&passes[2]);
    advance(0, 4);
    int seen = head_vain;
    shfl_queue_when(&passes[1], SHFL_QUEUE, 0);
    if (pthread_create(&head, NULL, lock_once, &passes[1])) exit(2);
    await(&head_vain, seen + 1);
    advance(0, 1);
    await(&found_open, 1);
    await(&head_vain, head_vain + 1);
    stays = 2;
    await(&stayed, 1);
    shfl_unlock(&passes[0]);
    nobody_passes(form);
    expect(found_open == 1, "the head finds stealing enabled again", form);
    stays = 0;
    pthread_join(head, NULL);
    close_all();
}

static _Atomic int gains;
static int order[THREADS];
static uint32_t hints[THREADS];

/* Holds until the next head has looked in vain, which it does after its round. Then the hints of the waking ahead say who comes next. */
static void *take_turn(void *arg) {
    struct shfl_pass *pass = arg;
    take(pass);
    order[gains] = (int)pass->me;
    int seen = head_vain;
    if (++gains < THREADS) {
        while (head_vain == seen) usleep(100);
        hints[gains - 1] = shfl_load(shfl_behind(pass->parking, pass->me));
    }
    shfl_unlock(pass);
    return NULL;
}

static void attach_all(const char *digits) {
    uint8_t bytes[64];
    size_t length = 0, half = 0;
    for (; *digits; digits++) {
        if (*digits == ' ') continue;
        uint8_t digit = (uint8_t)(*digits <= '9' ? *digits - '0' : *digits - 'a' + 10);
        bytes[length] = (uint8_t)(half ? bytes[length] << 4 | digit : digit);
        length += half;
        half = !half;
    }
    for (int k = 0; k < PASSES; k++) {
        if (shfl_attach(&passes[k], 1, bytes, length, bytes, 0).fault != 0) exit(2);
    }
}

/* Six threads queue one after the other behind the last pass, and take their turns. */
static void queue_all(void) {
    pthread_t threads[THREADS];
    shfl_lock(&passes[THREADS]);
    gains = 0;
    for (int k = 0; k < THREADS; k++) {
        if (pthread_create(&threads[k], NULL, take_turn, &passes[k])) exit(2);
        while (vain[k] == 0) usleep(100);
    }
    shfl_unlock(&passes[THREADS]);
    for (int k = 0; k < THREADS; k++) pthread_join(threads[k], NULL);
}

static void expect_order(const char *right, int form) {
    char got[THREADS + 1] = {0};
    for (int k = 0; k < THREADS; k++) got[k] = (char)('0' + order[k]);
    expect(memcmp(got, right, THREADS) == 0, right, form);
    if (memcmp(got, right, THREADS) != 0) printf("waits: the order was %s\n", got);
    for (int k = 0; k + 1 < THREADS; k++) expect(hints[k] == (uint32_t)order[k + 1] + 1, "a hint names another than the next one", form);
}

/* First in, first out without a policy, and with one under the limit 1; else by socket: the second pass moves the fourth before the third,
 * and never the last. */
static void orders(int form) {
    open_all(form);
    for (int k = 0; k < PASSES; k++) shfl_queue_when(&passes[k], SHFL_QUEUE, 0);
    queue_all();
    expect_order("012345", form);
    for (int how = SHFL_BY_POLICY; how <= SHFL_QUEUE; how++) {
        close_all();
        open_all(form);
        attach_all(by_socket);
        for (int k = 0; k < PASSES; k++) shfl_queue_when(&passes[k], (enum shfl_when)how, 0);
        queue_all();
        expect_order("013245", form);
    }
    close_all();
    open_all_by(form, 1);
    attach_all(by_socket);
    queue_all();
    expect_order("012345", form);
    close_all();
}

static void *wait_once(void *arg) {
    take(arg);
    shfl_unlock(arg);
    return NULL;
}

/* While nothing changes a shuffler that moved nobody makes fewer and fewer rounds, at last one in more than ten milliseconds. */
static void rounds_end(int form) {
    pthread_t threads[3];
    open_all(form);
    attach_all("b7000000000000009500000000000000");
    shfl_lock(&passes[THREADS]);
    for (int k = 0; k < 3; k++) {
        if (pthread_create(&threads[k], NULL, wait_once, &passes[k])) exit(2);
    }
    uint64_t begun = shfl_clock();
    usleep(100000);
    int rounds = alone, most = 90 + (int)((shfl_clock() - begun) / 10000000);
    shfl_unlock(&passes[THREADS]);
    for (int k = 0; k < 3; k++) pthread_join(threads[k], NULL);
    expect(rounds <= most, "a shuffler makes round after round", form);
    close_all();
}

static long counter;

static void *storm_of(void *arg) {
    struct shfl_pass *pass = arg;
    for (int k = 0; k < 5000; k++) {
        take(pass);
        counter++;
        if (k % 512 == 0) usleep(50);
        shfl_unlock(pass);
    }
    return NULL;
}

static void storms(int form) {
    for (int how = SHFL_BY_POLICY; how <= SHFL_TRY; how++) {
        pthread_t threads[STORM];
        open_all(form);
        counter = 0;
        for (int k = 0; k < STORM; k++) {
            shfl_queue_when(&passes[k], (enum shfl_when)how, 20);
            if (pthread_create(&threads[k], NULL, storm_of, &passes[k])) exit(2);
        }
        for (int k = 0; k < STORM; k++) pthread_join(threads[k], NULL);
        expect(counter == STORM * 5000, "the counter isn't exact", form);
        close_all();
    }
}

int main(void) {
    for (int form = SHFL_SPIN; form <= SHFL_RW_PARK; form++) {
        head_is_first(form);
        head_disables(form);
        orders(form);
        rounds_end(form);
        storms(form);
        expect(given_away_holding == 0, "the processor was given away after a step that went on", form);
        expect(slept_through == 0, "a sleeper wasn't woken for its turn", form);
    }
    if (failed == 0) printf("waits: the head is first, orders hold, rounds end, nobody who has the word gives the processor away\n");
    return failed;
}

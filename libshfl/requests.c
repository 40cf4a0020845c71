/* What a request at the control socket is answered. A request is one line, `shfl 1`, a word and its arguments with one blank between; an
 * answer is a line `ok`, lines that the word asks for, and a line `end`; or one line `error` with a number of POSIX's and words, or `refused`
 * with the fault of a program, and then nothing has changed. Proved is that no policy is used which the verifier refuses; the rest is this file's. */
#include <stdarg.h>
#include <stdio.h>
#include <stdlib.h>
#include <string.h>
#include "control.h"
#include "record.h"
#include "waits.h"

/* An answer has as many locks, and as many events, as there is room for; who wants more asks on. */
#define LOCK_MOST 1300
#define EVENT_MOST 120
#define WORDS 7

/* The words of a request, each of which ends with a zero. */
struct request { int count; char *words[WORDS]; };

static void say(struct shfl_reply *reply, const char *form, ...) {
    va_list more;
    size_t left = sizeof reply->text - reply->length;
    va_start(more, form);
    int length = vsnprintf(reply->text + reply->length, left, form, more);
    va_end(more);
    if (length > 0) reply->length += (size_t)length < left ? (size_t)length : left - 1;
}

static void fail(struct shfl_reply *reply, int error, const char *why) {
    reply->length = 0;
    say(reply, "error %d %s\n", error, why);
}

/* A number without a sign, no more than `most`. */
static bool number(const char *text, int base, uint64_t most, uint64_t *out) {
    const char *digits = base == 16 ? "0123456789abcdef" : "0123456789";
    size_t length = strlen(text);
    if (length == 0 || length > 16 || strspn(text, digits) != length) return false;
    *out = strtoull(text, NULL, base);
    return *out <= most;
}

static bool has_room(const struct shfl_reply *reply, size_t more) { return reply->length + more < sizeof reply->text - 100; }

/* In pairs of a name and a number: `w10 N`, so many waits of less than 2^10 nanoseconds and no less than 2^9, or than 0; the last of all longer
 * ones too. */
static void say_waits(struct shfl_reply *reply, const struct shfl_waits *it) {
    for (int k = 0; k < SHFL_WAITS; k++)
        if (it->of[k]) say(reply, " w%d %llu", k + 10, (unsigned long long)it->of[k]);
    say(reply, "\n");
}

static void say_counts(struct shfl_reply *reply, const struct shfl_stat *it) {
    say(reply, " taken %llu contended %llu queued %llu waited_ns %llu longest_ns %llu within %llu across %llu questions %llu yes %llu skipped %llu",
        (unsigned long long)it->taken, (unsigned long long)it->contended, (unsigned long long)it->queued, (unsigned long long)it->waited_ns,
        (unsigned long long)it->longest_ns, (unsigned long long)it->within, (unsigned long long)it->across,
        (unsigned long long)it->questions, (unsigned long long)it->yes, (unsigned long long)it->skipped);
}

static void hello(struct request *request, struct shfl_reply *reply) {
    (void)request;
    say(reply, "ok\npid %ld\nlibrary %d\nlocks %u of %u\nthreads %u of %u\nclasses %d\n", (long)getpid(), SHFL_VERSION, shfl_numbers_given(),
        shfl_load(&shfl_process.lock_count), shfl_load(&shfl_process.threads_seen), shfl_process.thread_count, SHFL_CLASSES);
    say(reply, "form %s\nlimit %u\nend\n", shfl_process.form == SHFL_RW_PARK ? "rw-park" : "rw", shfl_process.limit);
}

static void say_lock(struct shfl_reply *reply, uint32_t lock, const void *address) {
    struct shfl_stat counts;
    struct shfl_waits waits;
    shfl_sum_lock(lock, &counts, &waits);
    say(reply, "lock %u at %llx class %u", lock, (unsigned long long)(uintptr_t)address, shfl_load(&shfl_parking_of(lock)->class_of));
    say_counts(reply, &counts);
    say(reply, " caller %llu", (unsigned long long)(uintptr_t)shfl_caller_at(lock));
    say_waits(reply, &waits);
}

/* `locks K`: those that were given the numbers from the K-th on. */
static void locks(struct request *request, struct shfl_reply *reply) {
    uint64_t from;
    uint32_t given = shfl_numbers_given(), k;
    if (!number(request->words[3], 10, UINT32_MAX, &from)) return fail(reply, EINVAL, "no number");
    say(reply, "ok\n");
    for (k = (uint32_t)from; k < given && has_room(reply, LOCK_MOST); k++) {
        uint32_t lock = shfl_number_at(k);
        const void *address = __atomic_load_n(&shfl_process.totals[lock].address, __ATOMIC_SEQ_CST);
        if (address) say_lock(reply, lock, address);
    }
    if (k < given) say(reply, "more %u\n", k);
    say(reply, "end\n");
}

/* Those that have locks, or had a policy. */
static void classes(struct request *request, struct shfl_reply *reply) {
    (void)request;
    say(reply, "ok\n");
    for (unsigned k = 0; k < SHFL_CLASSES; k++) {
        struct shfl_class_stat it;
        struct shfl_waits waits;
        if (shfl_class_sum(k, &it, &waits) || (it.locks == 0 && it.version == 0 && it.counts.taken == 0)) continue;
        say(reply, "class %u locks %u policy %u version %u drained %u now %llu", k, it.locks, it.attached, it.version, it.drained,
            (unsigned long long)shfl_clock());
        say_counts(reply, &it.counts);
        say_waits(reply, &waits);
    }
    say(reply, "end\n");
}

/* `class NUMBER ADDRESS CLASS`: the lock of this number, if it is the one at this address still. */
static void put(struct request *request, struct shfl_reply *reply) {
    uint64_t lock, address, class_of;
    bool well = number(request->words[3], 10, UINT32_MAX, &lock) && number(request->words[4], 16, UINTPTR_MAX, &address);
    if (!well || !number(request->words[5], 10, SHFL_CLASSES - 1, &class_of)) return fail(reply, EINVAL, "no lock or class");
    int error = shfl_put_into((uint32_t)lock, (const void *)(uintptr_t)address, (uint32_t)class_of);
    if (error) return fail(reply, error, "no such lock");
    say(reply, "ok\nend\n");
}

static int digit(char it) { return it >= '0' && it <= '9' ? it - '0' : it >= 'a' && it <= 'f' ? it - 'a' + 10 : -1; }

/* The bytes of a program from its digits, `-` for none. */
static bool bytes_of(const char *text, uint8_t *room, size_t *length) {
    *length = 0;
    if (strcmp(text, "-") == 0) return true;
    size_t count = strlen(text);
    if (count == 0 || count % 2 || count / 2 > SHFL_PROGRAM_MOST) return false;
    for (size_t k = 0; k < count; k += 2) {
        int high = digit(text[k]), low = digit(text[k + 1]);
        if (high < 0 || low < 0) return false;
        room[(*length)++] = (uint8_t)(high << 4 | low);
    }
    return true;
}

/* `attach CLASS PROFILE SHOULD SKIP`, the programs in digits. */
static void attach(struct request *request, struct shfl_reply *reply) {
    static uint8_t should[SHFL_PROGRAM_MOST], skip[SHFL_PROGRAM_MOST]; /* one thread comes here */
    size_t should_length, skip_length;
    uint64_t class_of, profile;
    struct shfl_fault fault = {0, 0, 0, 0};
    bool well = number(request->words[3], 10, SHFL_CLASSES - 1, &class_of) && number(request->words[4], 10, 2, &profile) && profile > 0;
    if (!well || !bytes_of(request->words[5], should, &should_length) || !bytes_of(request->words[6], skip, &skip_length))
        return fail(reply, EINVAL, "no class, no profile or no digits");
    int error = shfl_class_policy((unsigned)class_of, (unsigned)profile, should_length ? should : NULL, should_length,
                                  skip_length ? skip : NULL, skip_length, &fault);
    if (error == EINVAL && fault.fault) return say(reply, "refused %u %s %u %u\n", fault.fault, fault.hook ? "skip" : "should", fault.slot, fault.reg);
    if (error) return fail(reply, error, "not attached");
    say(reply, "ok\nversion %u\nend\n", shfl_load(&shfl_class_at((uint32_t)class_of)->version));
}

static void detach(struct request *request, struct shfl_reply *reply) {
    uint64_t class_of;
    if (!number(request->words[3], 10, SHFL_CLASSES - 1, &class_of)) return fail(reply, EINVAL, "no class");
    int error = shfl_class_detach((unsigned)class_of);
    if (error) return fail(reply, error, "not detached");
    say(reply, "ok\nversion %u\nend\n", shfl_load(&shfl_class_at((uint32_t)class_of)->version));
}

static void say_digits(struct shfl_reply *reply, const uint8_t *bytes, size_t length) {
    if (length == 0) say(reply, " -");
    for (size_t k = 0; k < length; k++) say(reply, k ? "%02x" : " %02x", bytes[k]);
}

/* `policy CLASS`: what `attach` was given for this class, or two times `-`. */
static void policy(struct request *request, struct shfl_reply *reply) {
    static uint8_t room[2 * SHFL_PROGRAM_MOST]; /* one thread comes here */
    struct shfl_programs it;
    uint64_t class_of;
    if (!number(request->words[3], 10, SHFL_CLASSES - 1, &class_of)) return fail(reply, EINVAL, "no class");
    shfl_class_programs((unsigned)class_of, &it, room, sizeof room);
    say(reply, "ok\nprofile %u", it.profile ? it.profile : 1);
    say_digits(reply, room, it.should);
    say_digits(reply, room + it.should, it.skip);
    say(reply, "\nend\n");
}

/* `record NUMBER ADDRESS MILLISECONDS`: what happens at this lock from now on, for so long, and for two seconds after each `events`. */
static void record(struct request *request, struct shfl_reply *reply) {
    uint64_t lock, address, most;
    uint32_t id;
    bool well = number(request->words[3], 10, UINT32_MAX, &lock) && number(request->words[4], 16, UINTPTR_MAX, &address);
    if (!well || !number(request->words[5], 10, SHFL_RECORD_MOST_MS, &most)) return fail(reply, EINVAL, "no lock or no time");
    int error = shfl_record_begin((uint32_t)lock, (const void *)(uintptr_t)address, most, &id);
    if (error) return fail(reply, error, error == EBUSY ? "another lock is recorded" : "no such lock");
    say(reply, "ok\nrecord %u\nend\n", id);
}

/* `events RECORD FROM`: the events from this one on, how many are missing before them, where to go on, and whether there are more to come. */
static void events(struct request *request, struct shfl_reply *reply) {
    struct shfl_reader reader = {0, 0};
    struct shfl_happened it;
    uint64_t id;
    bool well = number(request->words[3], 10, UINT32_MAX, &id) && number(request->words[4], 10, UINT64_MAX / 2, &reader.next);
    if (!well) return fail(reply, EINVAL, "no number");
    if (shfl_record_renew((uint32_t)id)) return fail(reply, ENOENT, "no such record");
    bool over = shfl_record_is_over(), more = true;
    say(reply, "ok\n");
    while (has_room(reply, EVENT_MOST) && (more = shfl_record_next(&reader, &it))) {
        if (reader.lost) say(reply, "lost %llu\n", (unsigned long long)reader.lost);
        reader.lost = 0;
        say(reply, "%llu %c %u %u %u %llx\n", (unsigned long long)it.at, it.event, it.thread, it.tid, it.socket, (unsigned long long)it.about);
    }
    say(reply, "next %llu lost %llu over %d\nend\n", (unsigned long long)reader.next, (unsigned long long)reader.lost, over && !more);
}

static void forget(struct request *request, struct shfl_reply *reply) {
    uint64_t id;
    if (!number(request->words[3], 10, UINT32_MAX, &id)) return fail(reply, EINVAL, "no number");
    if (shfl_record_forget((uint32_t)id)) return fail(reply, ENOENT, "no such record");
    say(reply, "ok\nend\n");
}

/* The words with one blank between. False: there are more, or none where one is due. */
static bool split(char *text, struct request *request) {
    for (request->count = 0; text; request->count++) {
        char *blank = strchr(text, ' ');
        if (blank) *blank = 0;
        if (*text == 0 || request->count == WORDS) return false;
        request->words[request->count] = text;
        text = blank ? blank + 1 : NULL;
    }
    return true;
}

void shfl_reply_to(char *text, struct shfl_reply *reply) {
    static const struct { const char *word; int count; void (*run)(struct request *, struct shfl_reply *); } table[] = {
        {"hello", 3, hello}, {"locks", 4, locks}, {"classes", 3, classes}, {"class", 6, put}, {"attach", 7, attach}, {"detach", 4, detach},
        {"policy", 4, policy}, {"record", 6, record}, {"events", 5, events}, {"forget", 4, forget}};
    struct request request;
    reply->length = 0;
    if (!split(text, &request) || request.count < 3 || strcmp(request.words[0], "shfl") != 0) return fail(reply, EINVAL, "no request");
    if (strcmp(request.words[1], "1") != 0) return fail(reply, EPROTONOSUPPORT, "version 1 is spoken here");
    for (size_t k = 0; k < sizeof table / sizeof *table; k++)
        if (table[k].count == request.count && strcmp(request.words[2], table[k].word) == 0) return table[k].run(&request, reply);
    fail(reply, EINVAL, "no such request");
}

// The lock of line.c: each step is one operation on one word (docs/LOCK.md).
#include "line.h"

struct pass pass[PASSES];
uint64_t lock_word, state[PASSES];
unsigned tail, next[PASSES];
static bool bell[PASSES];

static bool free_for(enum mode mode, uint64_t word)
{
	return !(word & HELD) && (mode == MODE_READ || word < READER);
}

// Whether the pass takes its candidate into the batch.
static bool groups(const struct pass *p, unsigned me)
{
	if (policy == POLICY_SOCKET)
		return (attr[me] & 0xffff) == (p->seen & 0xffff);
	return policy == POLICY_ALWAYS;
}

// A pass whose state word was `word` was told to go on: it is rung where it sleeps.
static void ring(struct pass *p, uint64_t word, unsigned whom)
{
	bool sleeps = parks() && (word & PARKED) && !(word & (READY | SPIN));
	p->nap = sleeps ? NAP_RING : NAP_AWAKE;
	p->whom = whom;
}

static void seek(struct pass *p)
{
	p->phase = p->mode == MODE_WRITE ? PEEK : HEAD_COUNT;
}

static void top(struct pass *p)
{
	if (p->batch == 0 || p->flag) {
		p->headed = true;
		p->phase = BEGIN;
	} else {
		seek(p);
	}
}

static void end_round(struct pass *p)
{
	if (p->headed)
		seek(p);
	else
		p->phase = LOOK;
}

static void look(struct pass *p, unsigned me)
{
	uint64_t word = state[me];

	p->batch = word / BATCH & 0xffff;
	p->flag = word & SHUFFLER;
	if (word & READY) {
		top(p);
	} else if (p->flag) {
		p->headed = false;
		p->phase = BEGIN;
	} else if (parks() && p->batch == 0) {
		p->nap = NAP_DOZE;
	}
}

static void begin(struct pass *p, unsigned me)
{
	state[me] ^= (p->batch == 0 ? BATCH : 0) | (p->flag ? SHUFFLER : 0);
	if (p->batch == 0)
		p->batch = 1;
	p->flag = false;
	if (p->batch >= limit) {
		end_round(p);
		return;
	}
	p->prev = p->last = me;
	p->count = p->batch;
	p->phase = NEXT;
}

static void find_candidate(struct pass *p)
{
	unsigned found = next[p->prev];

	if (found == 0) {
		p->phase = GIVE;
		return;
	}
	p->cand = found - 1;
	if (p->prev == p->last)
		p->first = p->cand;
	p->phase = TAIL;
}

static void decide(struct pass *p, unsigned me)
{
	bool stop = p->headed ? free_for(p->mode, lock_word) : state[me] & READY;

	if (stop) {
		p->phase = GIVE;
	} else if (!groups(p, me)) {
		p->prev = p->cand;
		p->phase = NEXT;
	} else {
		p->phase = p->prev == p->last ? MARK : AFTER;
	}
}

static void mark(struct pass *p)
{
	uint64_t word = state[p->cand];

	state[p->cand] |= (uint64_t)BATCH * (p->count + 1) | (parks() ? SPIN : 0);
	p->phase = p->count + 1 < limit ? NEXT : GIVE;
	if (p->prev == p->last)
		p->prev = p->cand;
	p->last = p->cand;
	p->count++;
	ring(p, word, p->cand);
}

// The next word of a pass that has the lock is taken: its successor becomes the head.
static void take_heir(struct pass *p, unsigned me, enum phase none)
{
	unsigned found = next[me];

	next[me] = 0;
	if (found == 0) {
		p->phase = none;
	} else {
		p->heir = found - 1;
		p->phase = MAKE_READY;
	}
}

static void make_ready(struct pass *p)
{
	uint64_t word = state[p->heir];

	state[p->heir] |= READY;
	p->phase = HOLD;
	ring(p, word, p->heir);
}

static void step_queued(struct pass *p, unsigned me)
{
	uint64_t found;

	switch (p->phase) {
	case LOOK: look(p, me); break;
	case BEGIN: begin(p, me); break;
	case NEXT: find_candidate(p); break;
	case TAIL: p->phase = tail == p->cand + 1 ? GIVE : ATTR; break;
	case ATTR: p->seen = attr[p->cand]; p->phase = DECIDE; break;
	case DECIDE: decide(p, me); break;
	case AFTER:
		if (next[p->cand] == 0) {
			p->phase = GIVE;
		} else {
			p->after = next[p->cand] - 1;
			p->phase = PICK;
		}
		break;
	case PICK: next[p->prev] = p->after + 1; p->phase = AIM; break;
	case AIM: next[p->cand] = p->first + 1; p->phase = PLACE; break;
	case PLACE: next[p->last] = p->cand + 1; p->phase = MARK; break;
	case MARK: mark(p); break;
	case GIVE:
		state[p->last] |= SHUFFLER;
		if (p->last == me)
			p->flag = true;
		end_round(p);
		break;
	case PEEK:
		if (free_for(MODE_WRITE, lock_word)) {
			p->saw = lock_word;
			p->phase = shares() ? WRITE_GRAB : GRAB;
		}
		break;
	case GRAB:
		found = lock_word;
		lock_word |= HELD;
		if (found & HELD)
			top(p);
		else
			p->phase = TAKE;
		break;
	case WRITE_GRAB:
		if (lock_word != p->saw) {
			top(p);
		} else {
			lock_word += HELD;
			p->phase = TAKE;
		}
		break;
	case HEAD_COUNT:
		found = lock_word;
		lock_word += READER;
		p->phase = found & HELD ? HEAD_LOOK : TAKE;
		break;
	case HEAD_LOOK: p->phase = lock_word & HELD ? HEAD_LOOK : TAKE; break;
	case TAKE: take_heir(p, me, CUT); break;
	case CUT:
		p->phase = tail == me + 1 ? OPEN : LATE;
		if (tail == me + 1)
			tail = 0;
		break;
	case LATE: take_heir(p, me, LATE); break;
	default: break;
	}
}

static void step_awake(struct pass *p, unsigned me)
{
	uint64_t found;

	switch (p->phase) {
	case STEAL:
		p->phase = lock_word == 0 ? HOLD : INIT;
		if (lock_word == 0)
			lock_word = HELD;
		break;
	case COUNT:
		found = lock_word;
		lock_word += READER;
		p->phase = found & (HELD | CLOSED) ? UNCOUNT : HOLD;
		break;
	case UNCOUNT: lock_word -= READER; p->phase = INIT; break;
	case INIT: state[me] = 0; p->batch = 0; p->flag = false; p->phase = SWAP; break;
	case SWAP:
		if (tail == 0) {
			p->phase = CLOSE;
		} else {
			p->before = tail - 1;
			p->phase = LINK;
		}
		tail = me + 1;
		break;
	case LINK: next[p->before] = me + 1; p->phase = LOOK; break;
	case CLOSE: lock_word |= CLOSED; top(p); break;
	case MAKE_READY: make_ready(p); break;
	case OPEN: lock_word &= ~(uint64_t)CLOSED; p->phase = HOLD; break;
	case RELEASE: lock_word &= ~(uint64_t)HELD; p->phase = IDLE; break;
	case READ_RELEASE: lock_word -= READER; p->phase = IDLE; break;
	default: step_queued(p, me); break;
	}
}

static bool step(unsigned me)
{
	struct pass *p = &pass[me];
	uint64_t found = state[me];

	if (p->phase == IDLE || (p->phase == HOLD && p->nap == NAP_AWAKE))
		return false;
	switch (p->nap) {
	case NAP_AWAKE: step_awake(p, me); break;
	case NAP_DOZE: state[me] |= PARKED; p->nap = found & (READY | SPIN) ? NAP_ROUSE : NAP_HEAR; break;
	case NAP_HEAR:
		if (bell[me])
			p->nap = NAP_ROUSE;
		bell[me] = false;
		break;
	case NAP_ROUSE: state[me] &= ~(uint64_t)PARKED; p->nap = NAP_AWAKE; break;
	case NAP_RING: bell[p->whom] = true; p->nap = NAP_AWAKE; break;
	}
	return true;
}

static bool acquire(struct pass *p, enum mode mode)
{
	if (p->phase != IDLE)
		return false;
	p->phase = mode == MODE_WRITE ? STEAL : COUNT;
	p->mode = mode;
	return true;
}

static bool give_back(struct pass *p)
{
	if (p->phase != HOLD || p->nap != NAP_AWAKE)
		return false;
	p->phase = p->mode == MODE_WRITE ? RELEASE : READ_RELEASE;
	return true;
}

bool make(struct event e)
{
	switch (e.act) {
	case ACT_WRITE: return acquire(&pass[e.pass], MODE_WRITE);
	case ACT_READ: return acquire(&pass[e.pass], MODE_READ);
	case ACT_FREE: return give_back(&pass[e.pass]);
	default: return step(e.pass);
	}
}

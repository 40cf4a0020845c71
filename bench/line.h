// What the files of line.c share: the lock's words and passes, and what the document says.
#include <stdbool.h>
#include <stdint.h>

#define PASSES 64

enum { HELD = 1, CLOSED = 256 };
#define READER ((uint64_t)1 << 32)
enum { READY = 1, SHUFFLER = 2, PARKED = 4, SPIN = 8, BATCH = 65536 };

enum form { FORM_SPIN, FORM_RW, FORM_PARK, FORM_RW_PARK };
enum policy { POLICY_NEVER, POLICY_ALWAYS, POLICY_SOCKET };
enum mode { MODE_WRITE, MODE_READ };
enum act { ACT_WRITE, ACT_READ, ACT_FREE, ACT_STEP };
enum nap { NAP_AWAKE, NAP_DOZE, NAP_HEAR, NAP_ROUSE, NAP_RING };

enum phase {
	IDLE, STEAL, INIT, SWAP, LINK, CLOSE, LOOK, BEGIN, NEXT, TAIL, ATTR, DECIDE, AFTER, PICK, AIM, PLACE, MARK, GIVE, PEEK, GRAB,
	WRITE_GRAB, TAKE, CUT, LATE, MAKE_READY, OPEN, HOLD, RELEASE, COUNT, UNCOUNT, HEAD_COUNT, HEAD_LOOK, READ_RELEASE, PHASES
};

struct pass {
	enum phase phase;
	enum nap nap;
	enum mode mode;
	bool flag, headed;
	unsigned batch, count;
	unsigned before, prev, last, first, cand, after, heir, whom;
	uint64_t saw, seen;
};

struct event {
	uint8_t act, pass;
};

// What the document says.
extern enum form form;
extern enum policy policy;
extern unsigned limit, passes, version, profile;
extern uint64_t attr[PASSES];

// The passes, and the lock's words; a next word and the tail word are 0 or the number of a pass plus 1.
extern struct pass pass[PASSES];
extern uint64_t lock_word, state[PASSES];
extern unsigned tail, next[PASSES];

extern const char *const form_names[];

// The report is kept until it is whole, and nothing of it is written where memory runs out.
extern bool whole;

static inline bool parks(void)
{
	return form == FORM_PARK || form == FORM_RW_PARK;
}

static inline bool shares(void)
{
	return form == FORM_RW || form == FORM_RW_PARK;
}

// Makes an event's move, and tells whether it was admitted.
bool make(struct event e);

void put_heading(void);
void put_row(unsigned number, struct event e, bool admitted);
void put_totals(unsigned yes, unsigned no);

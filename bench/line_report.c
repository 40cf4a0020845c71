// The report of line.c.
#include <stdio.h>
#include <stdlib.h>
#include <string.h>

#include "line.h"

// What a report asks of a phase: whether its pass holds, is queued, is at the queue's head, is in a round.
enum { HOLDS = 1, QUEUED = 2, FORE = 4, ROUND = 8 };

static const uint8_t traits[PHASES] = {
	[LINK] = QUEUED, [LOOK] = QUEUED, [CLOSE] = QUEUED | FORE, [BEGIN] = QUEUED,
	[NEXT] = QUEUED | ROUND, [TAIL] = QUEUED | ROUND, [ATTR] = QUEUED | ROUND, [DECIDE] = QUEUED | ROUND, [AFTER] = QUEUED | ROUND,
	[PICK] = QUEUED | ROUND, [AIM] = QUEUED | ROUND, [PLACE] = QUEUED | ROUND, [MARK] = QUEUED | ROUND, [GIVE] = QUEUED | ROUND,
	[PEEK] = QUEUED | FORE, [GRAB] = QUEUED | FORE, [WRITE_GRAB] = QUEUED | FORE, [HEAD_COUNT] = QUEUED | FORE,
	[HEAD_LOOK] = QUEUED | FORE, [TAKE] = HOLDS | QUEUED | FORE, [CUT] = HOLDS | QUEUED | FORE, [LATE] = HOLDS | QUEUED | FORE,
	[MAKE_READY] = HOLDS, [OPEN] = HOLDS, [HOLD] = HOLDS, [RELEASE] = HOLDS, [READ_RELEASE] = HOLDS,
};

// A row has no more bytes than ROW. Where another might not fit, the buffer is written out, or, where the whole is kept, made longer.
#define ROW 2048
static char first[65536 + ROW];
static char *buffer = first, *out = first;
static size_t room = 65536;
bool whole;

static void flush(void)
{
	size_t length = out - buffer;

	if (fwrite(buffer, 1, length, stdout) != length)
		exit(4);
	out = buffer;
}

static void make_room(void)
{
	size_t length = out - buffer;
	char *longer;

	if (!whole) {
		flush();
		return;
	}
	room *= 2;
	longer = realloc(buffer == first ? NULL : buffer, room + ROW);
	if (!longer)
		exit(5);
	if (buffer == first)
		memcpy(longer, first, length);
	buffer = longer;
	out = longer + length;
}

static inline void put(const char *text)
{
	size_t length = strlen(text);

	memcpy(out, text, length);
	out += length;
}

static inline void put_char(char byte)
{
	*out++ = byte;
}

static void put_number(uint64_t n)
{
	char digits[20];
	int at = 20;

	if (n < 10) {
		put_char('0' + n);
		return;
	}
	if (n < 100) {
		put_char('0' + n / 10);
		put_char('0' + n % 10);
		return;
	}
	do {
		digits[--at] = '0' + n % 10;
		n /= 10;
	} while (n > 0);
	memcpy(out, digits + at, 20 - at);
	out += 20 - at;
}

// What one look at all passes finds, each a pass plus 1 or 0; `linker` is for each pass who has yet to write its next word.
struct seen {
	unsigned granter, fore, called, relinker, walker, flagged, linker[PASSES];
};

static void find(unsigned *where, bool test, unsigned me)
{
	if (*where == 0 && test)
		*where = me + 1;
}

// Writes the holders on the way.
static void scan(struct seen *s)
{
	bool none = true;

	memset(s, 0, sizeof *s);
	for (unsigned me = 0; me < passes; me++) {
		const struct pass *p = &pass[me];
		uint8_t trait = traits[p->phase];
		if (trait & HOLDS) {
			if (!none)
				put_char(',');
			put_char(p->mode == MODE_WRITE ? 'w' : 'r');
			put_number(me);
			none = false;
		}
		find(&s->granter, p->phase == MAKE_READY, me);
		if (trait & QUEUED) {
			bool round = trait & ROUND;
			find(&s->fore, (trait & FORE) || (p->headed && (round || p->phase == BEGIN)), me);
			find(&s->called, state[me] & READY, me);
			find(&s->flagged, state[me] & SHUFFLER, me);
			find(&s->walker, round, me);
			find(&s->relinker, p->phase == AIM || p->phase == PLACE, me);
			if (p->phase == LINK)
				find(&s->linker[p->before], true, me);
		}
	}
	if (none)
		put_char('-');
}

static void put_queue(const struct seen *s)
{
	unsigned at = s->granter ? pass[s->granter - 1].heir + 1 : s->fore ? s->fore : s->called;

	if (at == 0)
		put_char('-');
	for (unsigned count = 0; count < passes && at != 0; count++) {
		unsigned me = at - 1;
		if (count > 0)
			put_char(',');
		put_number(me);
		put_char(':');
		put_number(state[me] / BATCH & 0xffff);
		at = next[me] ? next[me] : s->linker[me];
	}
}

static void put_role(const struct seen *s)
{
	if (s->walker) {
		put("walk:");
		put_number(s->walker - 1);
	} else if (s->flagged) {
		put("rest:");
		put_number(s->flagged - 1);
	} else {
		put_char('-');
	}
}

static void put_asleep(void)
{
	bool none = true;

	for (unsigned me = 0; me < passes; me++) {
		if (pass[me].nap == NAP_HEAR) {
			if (!none)
				put_char(',');
			put_number(me);
			none = false;
		}
	}
	if (none)
		put_char('-');
}

void put_row(unsigned number, struct event e, bool admitted)
{
	static const char *const acts[] = { " write ", " read ", " free ", " step " };
	struct seen s;

	put_number(number);
	put(acts[e.act]);
	put_number(e.pass);
	put(admitted ? " yes word " : " no word ");
	put_number(lock_word);
	put(" hold ");
	scan(&s);
	put(" line ");
	put_queue(&s);
	put(" hand ");
	if (s.relinker)
		put_number(pass[s.relinker - 1].cand);
	else
		put_char('-');
	put(" role ");
	put_role(&s);
	if (parks()) {
		put(" asleep ");
		put_asleep();
	}
	put_char('\n');
	if (out >= buffer + room)
		make_room();
}

void put_heading(void)
{
	put("shfl-line ");
	put_number(version);
	if (version == 2) {
		put(" profile ");
		put_number(profile);
	}
	put(" form ");
	put(form_names[form]);
	put(" limit ");
	put_number(limit);
	put(" passes ");
	put_number(passes);
	put_char('\n');
}

void put_totals(unsigned yes, unsigned no)
{
	put("end yes ");
	put_number(yes);
	put(" no ");
	put_number(no);
	put_char('\n');
	flush();
	if (fflush(stdout) != 0)
		exit(4);
}

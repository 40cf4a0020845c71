// The peer of `syncord line`: it reads the same schedule from standard input, runs it on the same machine and writes the same report.
// It has no programs for a policy: where the document names some it ends with status 7. A bad document is status 1, without its fault;
// the other statuses are those of `syncord`. Build: cc -O2 -o line line.c line_lock.c line_report.c
#include <stdio.h>
#include <stdlib.h>
#include <string.h>

#include "line.h"

#define EVENTS 65536
#define INPUT (16u << 20)

enum form form;
enum policy policy;
unsigned limit, passes, version, profile;
uint64_t attr[PASSES];
const char *const form_names[] = { "spin", "rw", "park", "rw-park" };

static struct event event[EVENTS];
static unsigned events;

static char *input, *input_end;

static void bad(void)
{
	exit(1);
}

static void read_input(void)
{
	input = malloc(INPUT + 1);
	if (!input)
		exit(5);
	size_t length = fread(input, 1, INPUT + 1, stdin);
	if (ferror(stdin))
		exit(3);
	if (length > INPUT || (length > 0 && input[length - 1] != '\n'))
		bad();
	input_end = input + length;
}

// The next line as a string, or NULL at the end.
static char *next_line(void)
{
	if (input == input_end)
		return NULL;
	char *line = input, *end = memchr(input, '\n', input_end - input);
	for (char *at = line; at < end; at++)
		if (*at < ' ' || *at > '~')
			bad();
	*end = 0;
	input = end + 1;
	return line;
}

// What stands behind these words, or NULL.
static char *behind(char *line, const char *words)
{
	size_t length = strlen(words);

	return line && strncmp(line, words, length) == 0 ? line + length : NULL;
}

// Reads a number up to a limit and goes past it.
static unsigned number(char **at, unsigned most)
{
	char *digit = *at;
	unsigned n = 0;

	if (*digit < '0' || *digit > '9' || (*digit == '0' && digit[1] >= '0' && digit[1] <= '9'))
		bad();
	for (; *digit >= '0' && *digit <= '9'; digit++) {
		n = n * 10 + (*digit - '0');
		if (n > most)
			bad();
	}
	*at = digit;
	return n;
}

static unsigned last_number(char *at, unsigned most)
{
	unsigned n = at ? number(&at, most) : (bad(), 0);

	if (*at != 0)
		bad();
	return n;
}

static void read_front(void)
{
	char *line = next_line();

	version = last_number(behind(line, "shfl-line "), 2);
	profile = 1;
	if (version == 2)
		profile = last_number(behind(next_line(), "profile "), 2);
	if (version == 0 || profile == 0)
		bad();
	char *name = behind(next_line(), "form ");
	for (form = FORM_SPIN; name && strcmp(name, form_names[form]) != 0; form++)
		if (form == FORM_RW_PARK)
			bad();
	if (!name)
		bad();
	limit = last_number(behind(next_line(), "limit "), 1024);
	if (limit == 0)
		bad();
	name = behind(next_line(), "policy ");
	if (name && strcmp(name, "never") == 0)
		policy = POLICY_NEVER;
	else if (name && strcmp(name, "always") == 0)
		policy = POLICY_ALWAYS;
	else if (name && strcmp(name, "socket") == 0)
		policy = POLICY_SOCKET;
	else if (behind(name, "program "))
		exit(7);
	else
		bad();
}

static void read_passes(void)
{
	char *line;

	while ((line = next_line()) && strcmp(line, "events") != 0) {
		char *at = behind(line, "pass ");
		if (!at || passes == PASSES)
			bad();
		for (unsigned part = 0; part < 4; part++) {
			attr[passes] |= (uint64_t)number(&at, 65535) << (16 * part);
			if (*at++ != (part < 3 ? ' ' : 0))
				bad();
		}
		passes++;
	}
	if (!line || passes == 0)
		bad();
}

static void read_events(void)
{
	char *line, *at;

	while ((line = next_line())) {
		struct event e;
		if ((at = behind(line, "step ")))
			e.act = ACT_STEP;
		else if ((at = behind(line, "write ")))
			e.act = ACT_WRITE;
		else if ((at = behind(line, "free ")))
			e.act = ACT_FREE;
		else if (shares() && (at = behind(line, "read ")))
			e.act = ACT_READ;
		else
			bad();
		e.pass = last_number(at, passes - 1);
		if (events == EVENTS)
			bad();
		event[events++] = e;
	}
}

int main(int count, char **words)
{
	unsigned yes = 0;

	whole = count == 2 && strcmp(words[1], "whole") == 0;
	read_input();
	read_front();
	read_passes();
	read_events();
	put_heading();
	for (unsigned n = 0; n < events; n++) {
		bool admitted = make(event[n]);
		yes += admitted;
		put_row(n + 1, event[n], admitted);
	}
	put_totals(yes, events - yes);
	return 0;
}

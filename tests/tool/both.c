/* A program that uses a lock of the library and one of pthread, for tests/tool/both.py: both own uses the library's first, both pthread the other one. It
 * ends at a line of its standard input. */
#include <libshfl.h>
#include <pthread.h>
#include <stdio.h>
#include <string.h>

shfl_mutex_t hot;
pthread_mutex_t other = PTHREAD_MUTEX_INITIALIZER;

static int use_own(void) { return shfl_mutex_lock(&hot) || shfl_mutex_unlock(&hot); }
static int use_other(void) { return pthread_mutex_lock(&other) || pthread_mutex_unlock(&other); }

int main(int count, char **words) {
    char line[16];
    int failed = count > 1 && strcmp(words[1], "own") == 0 ? use_own() || use_other() : use_other() || use_own();
    if (failed) return 1;
    printf("ready\n");
    fflush(stdout);
    return !fgets(line, sizeof line, stdin);
}

/* A program that closes what it doesn't know, while a client of its control socket is there, and opens a file under the same number, keeps that file: closes FILE. */
#define _GNU_SOURCE
#include <errno.h>
#include <fcntl.h>
#include <libshfl.h>
#include <stdbool.h>
#include <sys/socket.h>
#include <sys/stat.h>
#include <sys/un.h>
#include <sys/wait.h>
#include <unistd.h>
#include "answers.h"

#define MOST 64
static shfl_mutex_t m;

/* Another process, which asks for nothing and stays. */
static void asks(pid_t process) {
    struct sockaddr_un place = {.sun_family = AF_UNIX};
    int it = socket(AF_UNIX, SOCK_STREAM, 0);
    snprintf(place.sun_path, sizeof place.sun_path, "%s/shfl-%d", getenv("SHFL_CONTROL"), (int)process);
    for (int k = 0; k < 5000 && connect(it, (struct sockaddr *)&place, sizeof place); k++) usleep(1000);
    sleep(3);
    _exit(0);
}

static bool is_socket(int number) {
    struct stat it;
    return fstat(number, &it) == 0 && S_ISSOCK(it.st_mode);
}

static int sockets(void) {
    int count = 0;
    for (int k = 3; k < MOST; k++) count += is_socket(k);
    return count;
}

int main(int count, char **words) {
    int files[MOST] = {0};
    pid_t self = getpid(), child = fork();
    alarm(100);
    IS(count, 2);
    if (child == 0) asks(self);
    IS(shfl_mutex_lock(&m) || shfl_mutex_unlock(&m), 0);
    while (sockets() < 2) usleep(1000); /* the one that listens, and the client's */
    for (int k = 3; k < MOST; k++)
        if (is_socket(k)) files[k] = close(k) == 0;
    for (int k = 3; k < MOST; k++)
        if (files[k]) IS(open(words[1], O_RDONLY), k);
    usleep(1500000);
    for (int k = 3; k < MOST; k++)
        if (files[k]) IS((int)lseek(k, 0, SEEK_CUR), 0);
    IS(shfl_mutex_lock(&m) || shfl_mutex_unlock(&m), 0);
    IS(waitpid(child, NULL, 0), child);
    puts("what comes under the number of a client stays the program's");
    return 0;
}

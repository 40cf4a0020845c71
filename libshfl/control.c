/* The control socket: where the environment asks for it, one thread answers requests of the same user at a Unix socket. It takes no lock of
 * the program's, and the threads of the program don't wait for it: a client that hangs is dropped after a second, or sooner where others may
 * wait, one that asks without end waits for its turn, and what a request is answered stands in requests.c. Nothing of this is proved.
 *
 * SHFL_CONTROL names the directory of the socket, which is the user's own and open to nobody else; 1 stands for XDG_RUNTIME_DIR/shfl. */
#define _GNU_SOURCE
#include <fcntl.h>
#include <poll.h>
#include <pthread.h>
#include <sched.h>
#include <signal.h>
#include <stdio.h>
#include <stdlib.h>
#include <string.h>
#include <sys/mman.h>
#include <sys/socket.h>
#include <sys/stat.h>
#include <sys/un.h>
#include "control.h"
#include "record.h"

/* So many clients at a time, each for so many nanoseconds, and for so many while no place is free. */
#define CLIENTS 16
#define CLIENT_NS 1000000000u
#define CLIENT_BRIEF_NS 100000000u
#define LOOK_MS 1000 /* after so long at the latest it looks whether the program has ended */

/* A client: its request as far as it came, then what it is answered as far as that went. */
struct client {
    int socket; /* -1: there is none */
    ino_t is; /* by which it is known */
    uint64_t since;
    size_t read, sent;
    struct shfl_reply reply; /* its length is 0 until the request is whole */
    char request[SHFL_REQUEST_MOST + 1];
};

static struct sockaddr_un place = {.sun_family = AF_UNIX};
static pid_t owner; /* the process that listens; a child of it doesn't */

/* Guarded by `table`, so that the child of a fork knows them all: the descriptors that are the library's. A program may close what it doesn't know, and
 * the number come to another file; so each is looked at before it is used. */
static shfl_guard table;
static int listening = -1;
static ino_t listens_as; /* by which it is known */
static struct client *clients;

void shfl_control_stop(void) { shfl_guard_lock(&table); }
void shfl_control_go_on(void) { shfl_guard_unlock(&table); }

static bool is_still(int socket, ino_t as) {
    struct stat it;
    return socket >= 0 && fstat(socket, &it) == 0 && S_ISSOCK(it.st_mode) && it.st_ino == as;
}

static bool is_listening(void) { return is_still(listening, listens_as); }

/* Whether the client is there, and its socket the library's still. */
static bool is_there(struct client *client) {
    if (!is_still(client->socket, client->is)) client->socket = -1;
    return client->socket >= 0;
}

static bool make_listening(void) {
    struct stat it;
    shfl_guard_lock(&table);
    listening = socket(AF_UNIX, SOCK_STREAM | SOCK_CLOEXEC | SOCK_NONBLOCK, 0);
    if (listening >= 0 && fstat(listening, &it) == 0) listens_as = it.st_ino;
    shfl_guard_unlock(&table);
    return listening >= 0;
}

static void end_listening(void) {
    if (is_listening()) close(listening);
    listening = -1;
}

static void complain(const char *what, const char *where) { fprintf(stderr, "libshfl: no control socket: %s: %s\n", where, what); }

/* The directory, made where it isn't there, unless it isn't the user's own. */
static bool directory(char *room, size_t size) {
    const char *told = secure_getenv("SHFL_CONTROL"), *run = secure_getenv("XDG_RUNTIME_DIR");
    if (!told || !*told || strcmp(told, "0") == 0) return false;
    bool usual = strcmp(told, "1") == 0;
    if (usual && (!run || !*run)) return complain("XDG_RUNTIME_DIR isn't set", "SHFL_CONTROL=1"), false;
    int length = usual ? snprintf(room, size, "%s/shfl", run) : snprintf(room, size, "%s", told);
    if (length < 0 || (size_t)length >= size) return complain("the name is too long", told), false;
    struct stat it;
    if (mkdir(room, 0700) && errno != EEXIST) return complain(strerror(errno), room), false;
    if (lstat(room, &it)) return complain(strerror(errno), room), false;
    if (!S_ISDIR(it.st_mode) || it.st_uid != geteuid() || (it.st_mode & 077)) return complain("it isn't a directory of this user alone (mode 0700)", room), false;
    return true;
}

#ifdef SHFL_HEAP_H
/* A program that uses the library by itself, and is preloaded besides, is asked for its own locks: whoever comes second, the preload library gives way. */
static bool gives_way(void) {
    shfl_guard_lock(&table);
    int at = socket(AF_UNIX, SOCK_STREAM | SOCK_CLOEXEC | SOCK_NONBLOCK, 0);
    bool is_there = at >= 0 && (connect(at, (struct sockaddr *)&place, sizeof place) == 0 || errno == EAGAIN);
    if (at >= 0) close(at);
    shfl_guard_unlock(&table);
    return is_there;
}
#else
static bool gives_way(void) { return false; }
#endif

static bool open_socket(void) {
    char room[sizeof place.sun_path];
    if (!directory(room, sizeof room - 20)) return false;
    snprintf(place.sun_path, sizeof place.sun_path, "%.*s/shfl-%ld", (int)(sizeof room - 20), room, (long)getpid());
    if (gives_way()) return false;
    if (!make_listening()) return complain(strerror(errno), room), false;
    unlink(place.sun_path);
    if (bind(listening, (struct sockaddr *)&place, sizeof place) == 0 && listen(listening, 64) == 0) return true;
    complain(strerror(errno), place.sun_path);
    end_listening();
    return false;
}

/* The user of the process, or root. */
static bool may_ask(int socket) {
    struct ucred peer;
    socklen_t size = sizeof peer;
    if (getsockopt(socket, SOL_SOCKET, SO_PEERCRED, &peer, &size)) return false;
    return peer.uid == geteuid() || peer.uid == 0;
}

static void drop(struct client *client) {
    shfl_guard_lock(&table);
    if (is_there(client)) close(client->socket);
    client->socket = -1;
    shfl_guard_unlock(&table);
}

static bool next_in(struct client *client) {
    struct stat it;
    shfl_guard_lock(&table);
    client->socket = accept4(listening, NULL, NULL, SOCK_CLOEXEC | SOCK_NONBLOCK);
    if (client->socket >= 0 && fstat(client->socket, &it) == 0) client->is = it.st_ino;
    shfl_guard_unlock(&table);
    return client->socket >= 0;
}

static void take_in(uint64_t now) {
    if (!is_listening()) listening = -1;
    for (int k = 0; k < CLIENTS && listening >= 0; k++) {
        struct client *client = &clients[k];
        if (client->socket >= 0) continue;
        if (!next_in(client)) {
            /* where the program has no descriptor left, the one that asks is left to wait */
            if (errno != EAGAIN) usleep(100000);
            return;
        }
        client->since = now;
        client->read = client->sent = client->reply.length = 0;
        if (!may_ask(client->socket)) drop(client);
    }
}

/* Reads on; a whole line, or more than a request has, is answered. */
static void hear(struct client *client) {
    ssize_t came = read(client->socket, client->request + client->read, SHFL_REQUEST_MOST - client->read);
    if (came < 0 && (errno == EAGAIN || errno == EINTR)) return;
    if (came <= 0) return drop(client);
    client->read += (size_t)came;
    char *end = memchr(client->request, '\n', client->read);
    if (!end && client->read < SHFL_REQUEST_MOST) return;
    bool whole = end && end + 1 == client->request + client->read && !memchr(client->request, 0, client->read);
    if (end) *end = 0;
    if (!whole) client->request[0] = 0;
    shfl_reply_to(client->request, &client->reply);
    client->since = shfl_clock(); /* its answer may have taken longer than a client has */
}

static void tell(struct client *client) {
    ssize_t went = send(client->socket, client->reply.text + client->sent, client->reply.length - client->sent, MSG_NOSIGNAL);
    if (went < 0 && (errno == EAGAIN || errno == EINTR)) return;
    if (went <= 0) return drop(client);
    client->sent += (size_t)went;
    if (client->sent == client->reply.length) drop(client);
}

static int free_places(void) {
    int count = 0;
    for (int k = 0; k < CLIENTS; k++) count += clients[k].socket < 0;
    return count;
}

/* Whom to look at, and for how many milliseconds; whose time is over is dropped. */
static int whom_to_hear(struct pollfd *at) {
    uint64_t now = shfl_clock(), most = free_places() > 0 ? CLIENT_NS : CLIENT_BRIEF_NS;
    int wait = shfl_record_left(now);
    for (int k = 0; k < CLIENTS; k++) {
        struct client *client = &clients[k];
        if (client->socket >= 0 && now - client->since >= most) drop(client);
        at[k] = (struct pollfd){client->socket, client->reply.length ? POLLOUT : POLLIN, 0};
        if (client->socket < 0) continue;
        int left = (int)((client->since + most - now) / 1000000) + 1;
        if (wait < 0 || left < wait) wait = left;
    }
    at[CLIENTS] = (struct pollfd){free_places() > 0 ? listening : -1, POLLIN, 0};
    return wait;
}

/* Of the program's threads only the first is left, and it has ended. */
static bool is_last(void) {
    char text[1024], state;
    long threads;
    int file = open("/proc/self/stat", O_RDONLY | O_CLOEXEC);
    ssize_t length = file >= 0 ? read(file, text, sizeof text - 1) : -1;
    if (file >= 0) close(file);
    text[length > 0 ? length : 0] = 0;
    char *at = strrchr(text, ')');
    return at && sscanf(at + 1, " %c %*d %*d %*d %*d %*d %*u %*u %*u %*u %*u %*u %*u %*d %*d %*d %*d %ld", &state, &threads) == 2 && state == 'Z' && threads == 2;
}

/* At the program's priority it may hold up its threads, so it has none; and where these have all ended, the process does, as by libc with its last thread. */
static void *serve(void *none) {
    struct pollfd at[CLIENTS + 1];
    sched_setscheduler(0, SCHED_OTHER, &(struct sched_param){0});
    for (;;) {
        int wait = whom_to_hear(at), came = poll(at, CLIENTS + 1, wait < 0 || wait > LOOK_MS ? LOOK_MS : wait);
        if (came == 0 && is_last()) exit(0);
        if (came < 0) usleep(100000); /* the program may have fewer descriptors than these */
        if (came <= 0) continue;
        for (int k = 0; k < CLIENTS; k++) {
            if (!at[k].revents || !is_there(&clients[k])) continue;
            if (clients[k].reply.length) tell(&clients[k]);
            else hear(&clients[k]);
        }
        if (at[CLIENTS].revents) take_in(shfl_clock());
    }
    return none;
}

/* Places for clients: a page of them is taken where it is first used. */
static bool make_places(void) {
    struct client *room = mmap(NULL, CLIENTS * sizeof *room, PROT_READ | PROT_WRITE, MAP_PRIVATE | MAP_ANONYMOUS | MAP_NORESERVE, -1, 0);
    if (room == MAP_FAILED) return false;
    for (int k = 0; k < CLIENTS; k++) room[k].socket = -1;
    shfl_guard_lock(&table);
    clients = room;
    shfl_guard_unlock(&table);
    return true;
}

/* The thread takes none of the program's signals. */
static bool begin(void) {
    pthread_attr_t attr;
    pthread_t thread;
    sigset_t all, before;
    sigfillset(&all);
    if (pthread_attr_init(&attr)) return false;
    pthread_attr_setdetachstate(&attr, PTHREAD_CREATE_DETACHED);
    pthread_attr_setstacksize(&attr, 256 * 1024);
    pthread_sigmask(SIG_SETMASK, &all, &before);
    bool done = pthread_create(&thread, &attr, serve, NULL) == 0;
    pthread_sigmask(SIG_SETMASK, &before, NULL);
    pthread_attr_destroy(&attr);
    return done;
}

/* Begins to listen, once for each process: a thread that takes its seat comes here. */
SHFL_COLD void shfl_control(void) {
    static pid_t begun;
    pid_t before = __atomic_load_n(&begun, __ATOMIC_SEQ_CST), now = getpid();
    if (before == now || !__atomic_compare_exchange_n(&begun, &before, now, false, __ATOMIC_SEQ_CST, __ATOMIC_SEQ_CST)) return;
    int error = errno, cancels;
    /* no lock is a point of cancellation */
    pthread_setcancelstate(PTHREAD_CANCEL_DISABLE, &cancels);
    if (open_socket()) {
        owner = now;
        if (!make_places() || !begin()) {
            complain("no thread or no memory", place.sun_path);
            unlink(place.sun_path);
            end_listening();
            owner = 0;
        }
    }
    pthread_setcancelstate(cancels, NULL);
    errno = error;
}

/* The socket and who asks there are the parent's; the child has one of its own as soon as a new thread of it uses a lock. */
void shfl_control_forked(void) {
    end_listening();
    for (int k = 0; clients && k < CLIENTS; k++)
        if (is_there(&clients[k])) close(clients[k].socket);
    if (clients) munmap(clients, CLIENTS * sizeof *clients);
    clients = NULL;
    shfl_record_forked();
}

__attribute__((destructor)) static void end_socket(void) {
    if (owner != 0 && owner == getpid()) unlink(place.sun_path);
}

/* Clients of a service over HTTP/1.1 on the loopback, each with one message under way at a time:

       load PORT CLIENTS MOST SECONDS kept|each FILE STATUS

   sends the message that FILE holds, MOST times in all or for so many SECONDS, whichever ends first, over connections that are `kept`
   from one message to the next or opened anew for `each`. A kept connection that is closed before a byte of its reply is opened
   again, and the message sent again: the time that this takes is the reply's too. Prints a line: how many replies had STATUS, how many
   others or none, how many connections were opened again, the seconds, and microseconds from a message's beginning (the
   connection with it) to its reply's end: the median, the 99th of a hundred and the greatest. */
#define _GNU_SOURCE
#include <arpa/inet.h>
#include <errno.h>
#include <fcntl.h>
#include <netinet/in.h>
#include <netinet/tcp.h>
#include <stdio.h>
#include <stdlib.h>
#include <string.h>
#include <strings.h>
#include <sys/epoll.h>
#include <sys/socket.h>
#include <time.h>
#include <unistd.h>

enum { ROOM = 1 << 20, ATTEMPTS = 100 };

struct client {
    int fd, attempts;
    double begun;
    size_t sent, got;
    char *reply;
};

static struct sockaddr_in address;
static char message[ROOM];
static size_t message_len;
static int epoll_fd, kept;
static const char *wanted;
static long left, done, wrong, again, under_way, times_room;
static double *times, until;

static double now(void) {
    struct timespec t;
    clock_gettime(CLOCK_MONOTONIC, &t);
    return t.tv_sec + t.tv_nsec / 1e9;
}

static void connected(struct client *c) {
    struct epoll_event event = {.events = EPOLLIN | EPOLLOUT | EPOLLRDHUP | EPOLLET, .data.ptr = c};
    int one = 1;
    c->fd = socket(AF_INET, SOCK_STREAM | SOCK_NONBLOCK, 0);
    if (c->fd < 0) { perror("socket"); exit(2); }
    setsockopt(c->fd, IPPROTO_TCP, TCP_NODELAY, &one, sizeof one);
    if (connect(c->fd, (struct sockaddr *)&address, sizeof address) && errno != EINPROGRESS) { perror("connect"); exit(2); }
    if (epoll_ctl(epoll_fd, EPOLL_CTL_ADD, c->fd, &event)) { perror("epoll_ctl"); exit(2); }
}

static void disconnected(struct client *c) {
    if (c->fd >= 0) close(c->fd);
    c->fd = -1;
}

/* The length of the reply that begins the bytes; 0 where it isn't whole. */
static size_t reply_len(const char *bytes, size_t got) {
    const char *end = memmem(bytes, got, "\r\n\r\n", 4);
    if (!end) return 0;
    size_t head = end + 4 - bytes, length = 0;
    if (!strncmp(bytes + 9, "204", 3)) return head;
    for (const char *line = memmem(bytes, head, "\r\n", 2); line && line < end; line = memmem(line + 2, bytes + head - line - 2, "\r\n", 2)) {
        if (!strncasecmp(line + 2, "content-length:", 15)) length = strtoul(line + 17, NULL, 10);
        if (!strncasecmp(line + 2, "transfer-encoding: chunked", 26)) {
            const char *last = memmem(end, got - (end - bytes), "\r\n0\r\n\r\n", 7);
            return last ? (size_t)(last + 7 - bytes) : 0;
        }
    }
    return got >= head + length ? head + length : 0;
}

static void send_more(struct client *c) {
    while (c->sent < message_len) {
        ssize_t n = send(c->fd, message + c->sent, message_len - c->sent, MSG_NOSIGNAL);
        if (n <= 0) return;
        c->sent += n;
    }
}

/* The next message of a client, if there is one. */
static void begin(struct client *c) {
    if (!left || now() >= until) { disconnected(c); return; }
    left--;
    under_way++;
    c->begun = now();
    c->sent = c->got = c->attempts = 0;
    if (c->fd < 0) connected(c);
    else send_more(c);
}

static void ended(struct client *c, int right) {
    under_way--;
    if (right) done++;
    else wrong++;
    if (done + wrong > times_room) times = realloc(times, (times_room = 2 * times_room + 1024) * sizeof *times);
    times[done + wrong - 1] = now() - c->begun;
    if (!kept || !right) disconnected(c);
    begin(c);
}

static void attempt_again(struct client *c) {
    disconnected(c);
    if (c->got || ++c->attempts >= ATTEMPTS) { ended(c, 0); return; }
    again++;
    c->sent = 0;
    connected(c);
}

/* Reads what is there. Whether the client's connection is another one now. */
static void receive(struct client *c) {
    int fd = c->fd;
    while (c->fd == fd && fd >= 0) {
        ssize_t n = recv(fd, c->reply + c->got, ROOM - c->got, 0);
        if (n < 0 && (errno == EAGAIN || errno == EINTR)) return;
        if (n <= 0) { attempt_again(c); return; }
        c->got += n;
        if (reply_len(c->reply, c->got)) { ended(c, !strncmp(c->reply + 9, wanted, 3)); if (kept) continue; return; }
    }
}

static int is_less(const void *a, const void *b) { return (*(double *)a > *(double *)b) - (*(double *)a < *(double *)b); }

static double at(double part) { return 1e6 * (done + wrong ? times[(long)(part * (done + wrong - 1))] : 0); }

int main(int count, char **words) {
    if (count != 8) return 64;
    int clients = atoi(words[2]), file = open(words[6], O_RDONLY);
    address = (struct sockaddr_in){.sin_family = AF_INET, .sin_port = htons(atoi(words[1])), .sin_addr.s_addr = htonl(INADDR_LOOPBACK)};
    left = atol(words[3]);
    kept = !strcmp(words[5], "kept");
    message_len = read(file, message, ROOM);
    wanted = words[7];
    epoll_fd = epoll_create1(0);
    struct client *all = calloc(clients, sizeof *all);
    double start = now();
    until = start + atof(words[4]);
    for (int i = 0; i < clients; i++) {
        all[i].fd = -1;
        all[i].reply = malloc(ROOM);
        begin(&all[i]);
    }
    while (under_way) {
        struct epoll_event events[256];
        int many = epoll_wait(epoll_fd, events, 256, 600000);
        if (many == 0) { fprintf(stderr, "no reply for ten minutes\n"); return 1; }
        for (int i = 0; i < many; i++) {
            struct client *c = events[i].data.ptr;
            if (c->fd < 0) continue;
            if (events[i].events & EPOLLOUT) send_more(c);
            if (events[i].events & (EPOLLIN | EPOLLRDHUP | EPOLLHUP | EPOLLERR)) receive(c);
        }
    }
    double passed = now() - start;
    qsort(times, done + wrong, sizeof *times, is_less);
    printf("{\"done\":%ld,\"wrong\":%ld,\"again\":%ld,\"seconds\":%.4f,\"p50\":%.0f,\"p99\":%.0f,\"max\":%.0f}\n", done, wrong, again, passed, at(0.5),
           at(0.99), at(1));
    return wrong != 0;
}

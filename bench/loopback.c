/*
 * loopback.c: the two ends of bench/loopback.py, in C, so that the figures are not mostly those of a script.
 *
 *   loopback echo PORT REQUESTS              answers each datagram by 4136 bytes, as many as a reply to READ has, and does nothing else
 *   loopback bare FILE TIMES                 writes 4096 bytes to a file four times, each with its sync, so many times over. Prints as `ask`.
 *   loopback ask PORT CLIENTS REQUESTS KIND  CLIENTS hosts, each with a socket of its own and one request under way, ask until REQUESTS
 *                                            are answered. KIND is echo, lookup, read or write. Prints seconds, median and 99th
 *                                            percentile of the round trip in microseconds.
 *
 * All addresses are 127.0.0.1, and host h has port PORT + 1 + h. A request that gets no reply for two seconds ends the run with status 1.
 */
#include <arpa/inet.h>
#include <fcntl.h>
#include <poll.h>
#include <stdint.h>
#include <stdio.h>
#include <stdlib.h>
#include <string.h>
#include <sys/socket.h>
#include <time.h>
#include <unistd.h>

enum { MOST_CLIENTS = 64, ROOM = 8192, REPLY = 4136, BLOCKS = 8 };
enum { ATTACH = 1, LOOKUP = 2, CREATE = 3, READ = 5, WRITE = 6 };

static double now(void)
{
    struct timespec t;
    clock_gettime(CLOCK_MONOTONIC, &t);
    return t.tv_sec + t.tv_nsec / 1e9;
}

static void give_up(const char *why)
{
    fprintf(stderr, "loopback: %s\n", why);
    exit(1);
}

static struct sockaddr_in address_of(int port)
{
    struct sockaddr_in a = { .sin_family = AF_INET, .sin_port = htons(port) };
    a.sin_addr.s_addr = htonl(INADDR_LOOPBACK);
    return a;
}

static int socket_at(int port)
{
    struct sockaddr_in a = address_of(port);
    int s = socket(AF_INET, SOCK_DGRAM, 0);
    if (s < 0 || bind(s, (struct sockaddr *)&a, sizeof a) < 0)
        give_up("a port is taken");
    return s;
}

static void echo(int port, long requests)
{
    static char in[ROOM], out[REPLY];
    int s = socket_at(port);
    for (long i = 0; i < requests; i++) {
        struct sockaddr_in from;
        socklen_t length = sizeof from;
        ssize_t got = recvfrom(s, in, sizeof in, 0, (struct sockaddr *)&from, &length);
        if (got < 4)
            give_up("the echo received nothing");
        memcpy(out, in, 4);
        sendto(s, out, sizeof out, 0, (struct sockaddr *)&from, length);
    }
}

static uint8_t *word(uint8_t *at, uint32_t x)
{
    x = htonl(x);
    memcpy(at, &x, 4);
    return at + 4;
}

static uint8_t *hyper(uint8_t *at, uint64_t x)
{
    return word(word(at, x >> 32), (uint32_t)x);
}

static uint8_t *name(uint8_t *at)
{
    at = word(at, 1);
    memcpy(at, "a\0\0\0", 4);
    return at + 4;
}

struct client {
    int socket;
    uint32_t host, xid;
    double begun;
};

/* Spells a request; gives its length. */
static size_t spell(struct client *c, int procedure, uint8_t *to)
{
    const uint32_t head[] = { 0, 2, 0x20004e51, 1, procedure, 0, 0, 0, 0 };
    uint8_t *at = word(to, ++c->xid);
    for (int i = 0; i < 9; i++)
        at = word(at, head[i]);
    at = word(word(at, c->host), 1);
    uint32_t block = c->xid % BLOCKS;
    if (procedure == LOOKUP)
        at = name(at);
    else if (procedure == CREATE)
        at = word(name(hyper(at, c->xid)), BLOCKS);
    else if (procedure == READ)
        at = word(word(word(hyper(at, c->xid), 1), block), 0);
    else if (procedure == WRITE) {
        at = word(word(hyper(at, c->xid), 1), block);
        at = word(word(hyper(hyper(at, c->xid), c->xid), 0), 4096);
        memset(at, 0, 4096);
        at = word(at, c->xid) + 4092;
    }
    return at - to;
}

static void ask(struct client *c, int procedure)
{
    uint8_t bytes[ROOM];
    size_t length = spell(c, procedure, bytes);
    c->begun = now();
    if (send(c->socket, bytes, length, 0) != (ssize_t)length)
        give_up("a request could not be sent");
}

/* Whether the datagram that waits is the reply to what was asked last. */
static int hear(struct client *c, int is_echo)
{
    uint8_t bytes[ROOM];
    uint32_t words[10];
    ssize_t got = recv(c->socket, bytes, sizeof bytes, 0);
    if (got < (is_echo ? 4 : 32))
        give_up("a reply is short");
    memcpy(words, bytes, is_echo ? 4 : 32);
    if (ntohl(words[0]) != c->xid)
        return 0;
    if (!is_echo && (words[5] != 0 || ntohl(words[6]) != 1 || words[7] != 0))
        give_up("a request was refused");
    return 1;
}

static void ask_alone(struct client *c, int procedure)
{
    struct pollfd p = { .fd = c->socket, .events = POLLIN };
    ask(c, procedure);
    do {
        if (poll(&p, 1, 2000) != 1)
            give_up("no reply");
    } while (!hear(c, 0));
}

static int by_size(const void *a, const void *b)
{
    double x = *(const double *)a, y = *(const double *)b;
    return x < y ? -1 : x > y;
}

static void tell(double seconds, double *taken, long times)
{
    qsort(taken, times, sizeof *taken, by_size);
    printf("%.6f %.1f %.1f\n", seconds, taken[times / 2] * 1e6, taken[times * 99 / 100] * 1e6);
}

static void write_four(int file)
{
    static const char bytes[4096];
    for (int place = 0; place < 4; place++)
        if (pwrite(file, bytes, sizeof bytes, place * sizeof bytes) != sizeof bytes || fsync(file) < 0)
            give_up("the file could not be written");
}

static void write_bare(const char *name, long times)
{
    int file = open(name, O_RDWR | O_CREAT, 0600);
    double *taken = calloc(times, sizeof *taken);
    if (!taken || file < 0)
        give_up("no file");
    write_four(file);
    double begun = now();
    for (long i = 0; i < times; i++) {
        double first = now();
        write_four(file);
        taken[i] = now() - first;
    }
    tell(now() - begun, taken, times);
}

static void ask_all(int port, int clients, long requests, int procedure)
{
    static struct client c[MOST_CLIENTS];
    static struct pollfd p[MOST_CLIENTS];
    struct sockaddr_in server = address_of(port);
    double *taken = calloc(requests, sizeof *taken);
    int is_echo = procedure == 0;
    for (int h = 0; h < clients; h++) {
        c[h] = (struct client){ .socket = socket_at(port + 1 + h), .host = h };
        p[h] = (struct pollfd){ .fd = c[h].socket, .events = POLLIN };
        if (!taken || connect(c[h].socket, (struct sockaddr *)&server, sizeof server) < 0)
            give_up("no socket");
        if (!is_echo) {
            ask_alone(&c[h], ATTACH);
            if (h == 0)
                ask_alone(&c[h], CREATE);
        }
    }
    long sent = 0, heard = 0;
    double begun = now();
    for (int h = 0; h < clients && sent < requests; h++, sent++)
        ask(&c[h], is_echo ? LOOKUP : procedure);
    while (heard < requests) {
        if (poll(p, clients, 2000) < 1)
            give_up("no reply");
        for (int h = 0; h < clients; h++)
            if (p[h].revents && hear(&c[h], is_echo)) {
                if (heard < requests)
                    taken[heard++] = now() - c[h].begun;
                if (sent < requests) {
                    sent++;
                    ask(&c[h], is_echo ? LOOKUP : procedure);
                }
            }
    }
    tell(now() - begun, taken, requests);
}

int main(int count, char **words)
{
    if (count == 4 && !strcmp(words[1], "echo")) {
        echo(atoi(words[2]), atol(words[3]));
        return 0;
    }
    if (count == 4 && !strcmp(words[1], "bare")) {
        write_bare(words[2], atol(words[3]));
        return 0;
    }
    if (count != 6 || strcmp(words[1], "ask"))
        give_up("usage: loopback echo PORT REQUESTS | loopback bare FILE TIMES | loopback ask PORT CLIENTS REQUESTS KIND");
    int clients = atoi(words[3]);
    const char *kind = words[5];
    int procedure = !strcmp(kind, "lookup") ? LOOKUP : !strcmp(kind, "read") ? READ : !strcmp(kind, "write") ? WRITE : 0;
    if (clients < 1 || clients > MOST_CLIENTS)
        give_up("1 to 64 clients");
    ask_all(atoi(words[2]), clients, atol(words[4]), procedure);
    return 0;
}

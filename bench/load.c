/* Makes queries of a VXI-11 server on this host, each a device_write of a short text and a device_read of it.
 *
 *     load PORT CONNECTIONS SECONDS [WRITERS [BUSES [BYTES]]]
 *
 * Each connection has a thread and a link of its own, to one of the devices gpib0,5 to gpib0,8, which are echoes. All start
 * together. It prints `queries=N seconds=S median=U last=V`: how many were made, in which time, and in how many microseconds half
 * and 99 of a hundred of them were answered. Each reply is compared whole. Status 1: a reply was wrong or a connection failed.
 *
 * WRITERS are so many connections more, on the devices behind those of the others, and each makes a device_write of 65,536 bytes
 * after the other. These aren't counted.
 *
 * With BUSES, 1 to 4, the connections go round so many buses in place of the devices of one, each to the device at 5 of its bus.
 *
 * BYTES, 1 to 65,536, is how long the text of a query is; else it is six bytes.
 */
#include <arpa/inet.h>
#include <netinet/tcp.h>
#include <pthread.h>
#include <stdint.h>
#include <stdio.h>
#include <stdlib.h>
#include <string.h>
#include <sys/socket.h>
#include <time.h>
#include <unistd.h>

enum { CORE = 0x0607AF, CREATE_LINK = 10, DEVICE_WRITE = 11, DEVICE_READ = 12 };
enum { FIRST_ADDRESS = 5, DEVICES = 4, WAIT_MS = 10000, END = 8, BY_END = 4, READ_BYTES = 65536, LONG_WORDS = 16384, MOST_BUSES = 4 };
static const uint32_t LAST_FRAGMENT = 0x80000000u;
static const char TEXT[8] = "*IDN?\n"; /* six bytes */

struct connection {
    int number, socket, writes;
    uint32_t xid, link;
    double *times; /* of each query, in seconds */
    size_t queries, room;
    const char *fault;
};

static int port, buses, length = 6; /* of a text */
static double seconds, end;
static pthread_barrier_t ready, start;

static double now(void) {
    struct timespec t;
    clock_gettime(CLOCK_MONOTONIC, &t);
    return t.tv_sec + t.tv_nsec / 1e9;
}

static int fail(struct connection *c, const char *fault) {
    c->fault = fault;
    return 0;
}

static int send_all(int to, const void *bytes, size_t n) {
    for (const char *at = bytes; n;) {
        ssize_t k = send(to, at, n, MSG_NOSIGNAL);
        if (k <= 0) return 0;
        at += k, n -= k;
    }
    return 1;
}

static int receive_all(int from, void *bytes, size_t n) {
    for (char *at = bytes; n;) {
        ssize_t k = recv(from, at, n, 0);
        if (k <= 0) return 0;
        at += k, n -= k;
    }
    return 1;
}

/* Receives a record of so many bytes, in any fragments. */
static int receive_record(struct connection *c, void *bytes, size_t length) {
    uint32_t head;
    size_t at = 0, n;
    do {
        if (!receive_all(c->socket, &head, 4)) return fail(c, "no reply came");
        n = ntohl(head) & ~LAST_FRAGMENT;
        if (at + n > length) return fail(c, "a reply is too long");
        if (!receive_all(c->socket, (char *)bytes + at, n)) return fail(c, "a reply was cut short");
        at += n;
    } while (!(ntohl(head) & LAST_FRAGMENT));
    return at == length || fail(c, "a reply is too short");
}

/* Makes a call with these words behind its header, and leaves the words of its results in `results`, which are `count`. */
static int call(struct connection *c, uint32_t procedure, const uint32_t *words, int n, uint32_t *results, int count) {
    const uint32_t header[11] = { LAST_FRAGMENT | 4 * (10 + n), ++c->xid, 0, 2, CORE, 1, procedure };
    uint32_t out[11 + n], in[6 + count];
    memcpy(out, header, sizeof header);
    memcpy(out + 11, words, 4 * n);
    for (int i = 0; i < 11 + n; i++) out[i] = htonl(out[i]);
    if (!send_all(c->socket, out, 4 * (11 + n))) return fail(c, "a call wasn't taken");
    if (!receive_record(c, in, 4 * (6 + count))) return 0;
    for (int i = 0; i < 6 + count; i++) in[i] = ntohl(in[i]);
    uint32_t want[] = { c->xid, 1, 0, 0, 0, 0 };
    if (memcmp(in, want, sizeof want)) return fail(c, "a reply with another header");
    memcpy(results, in + 6, 4 * count);
    return 1;
}

static int open_link(struct connection *c) {
    struct sockaddr_in to = { .sin_family = AF_INET, .sin_port = htons(port), .sin_addr.s_addr = htonl(INADDR_LOOPBACK) };
    struct timeval wait = { .tv_sec = 2 * WAIT_MS / 1000 };
    int one = 1;
    c->socket = socket(AF_INET, SOCK_STREAM, 0);
    if (c->socket < 0 || connect(c->socket, (void *)&to, sizeof to)) return fail(c, "not connected");
    setsockopt(c->socket, IPPROTO_TCP, TCP_NODELAY, &one, sizeof one);
    setsockopt(c->socket, SOL_SOCKET, SO_RCVTIMEO, &wait, sizeof wait);
    /* gpibB,A: seven bytes, and one of padding */
    uint32_t bus = buses ? c->number % buses : 0, address = FIRST_ADDRESS + (buses ? 0 : c->number % DEVICES);
    uint32_t device[] = { 0x67706962, 0x302C3000 | bus << 24 | address << 8 };
    uint32_t words[] = { c->number, 0, 0, 7, device[0], device[1] }, results[4];
    if (!call(c, CREATE_LINK, words, 6, results, 4)) return 0;
    c->link = results[1];
    return results[0] == 0 || fail(c, "no link was made");
}

static int query(struct connection *c, const uint32_t *text) {
    int words = (length + 3) / 4;
    uint32_t write[5 + LONG_WORDS] = { c->link, WAIT_MS, WAIT_MS, END, length };
    uint32_t read[] = { c->link, READ_BYTES, WAIT_MS, WAIT_MS, 0, 0 };
    uint32_t wrote[] = { 0, length }, echoed[3 + LONG_WORDS] = { 0, BY_END, length }, results[3 + LONG_WORDS];
    memcpy(write + 5, text, 4 * words);
    memcpy(echoed + 3, text, 4 * words);
    if (!call(c, DEVICE_WRITE, write, 5 + words, results, 2)) return 0;
    if (memcmp(results, wrote, sizeof wrote)) return fail(c, "a write was answered otherwise");
    if (!call(c, DEVICE_READ, read, 6, results, 3 + words)) return 0;
    results[1] &= BY_END; /* a text that fills the read may end it by its length as well */
    return !memcmp(results, echoed, 4 * (3 + words)) || fail(c, "a read was answered otherwise");
}

static int write_long(struct connection *c) {
    uint32_t words[5 + LONG_WORDS] = { c->link, WAIT_MS, WAIT_MS, END, 4 * LONG_WORDS };
    uint32_t wrote[] = { 0, 4 * LONG_WORDS }, results[2];
    if (!call(c, DEVICE_WRITE, words, 5 + LONG_WORDS, results, 2)) return 0;
    return !memcmp(results, wrote, sizeof wrote) || fail(c, "a long write was answered otherwise");
}

static int keep(struct connection *c, double time) {
    if (c->queries == c->room) {
        c->room = c->room ? 2 * c->room : 4096;
        c->times = realloc(c->times, c->room * sizeof *c->times);
        if (!c->times) return fail(c, "no memory");
    }
    c->times[c->queries++] = time;
    return 1;
}

static void *work(void *of) {
    struct connection *c = of;
    char bytes[4 * LONG_WORDS] = { 0 };
    uint32_t text[LONG_WORDS];
    for (int i = 0; i < length; i++) bytes[i] = TEXT[i % 6];
    memcpy(text, bytes, sizeof text);
    for (int i = 0; i < LONG_WORDS; i++) text[i] = ntohl(text[i]);
    int goes = open_link(c);
    pthread_barrier_wait(&ready);
    pthread_barrier_wait(&start);
    for (double from = now(), to; goes && from < end; from = to) {
        goes = c->writes ? write_long(c) : query(c, text);
        to = now();
        goes = goes && (c->writes || keep(c, to - from));
    }
    return NULL;
}

static int by_size(const void *a, const void *b) {
    double x = *(const double *)a, y = *(const double *)b;
    return (x > y) - (x < y);
}

int main(int count, char **words) {
    int asking = count >= 4 && count <= 7 ? atoi(words[2]) : 0, connections = asking + (count >= 5 ? atoi(words[4]) : 0);
    buses = count >= 6 ? atoi(words[5]) : 0;
    length = count == 7 ? atoi(words[6]) : length;
    if (asking < 1 || connections < asking || buses < 0 || buses > MOST_BUSES || length < 1 || length > 4 * LONG_WORDS)
        return fprintf(stderr, "usage: load PORT CONNECTIONS SECONDS [WRITERS [BUSES [BYTES]]]\n"), 2;
    port = atoi(words[1]), seconds = atof(words[3]);
    struct connection *all = calloc(connections, sizeof *all);
    pthread_t *threads = calloc(connections, sizeof *threads);
    if (!all || !threads) return 2;
    pthread_barrier_init(&ready, NULL, connections + 1);
    pthread_barrier_init(&start, NULL, connections + 1);
    for (int i = 0; i < connections; i++) {
        all[i].number = i, all[i].writes = i >= asking;
        if (pthread_create(&threads[i], NULL, work, &all[i])) return perror("load"), 2;
    }
    pthread_barrier_wait(&ready);
    double began = now();
    end = began + seconds;
    pthread_barrier_wait(&start);
    size_t queries = 0, at = 0;
    int faults = 0;
    for (int i = 0; i < connections; i++) {
        pthread_join(threads[i], NULL);
        queries += all[i].queries;
        if (all[i].fault) faults++, fprintf(stderr, "load: connection %d: %s\n", i, all[i].fault);
    }
    double took = now() - began, *times = malloc((queries + 1) * sizeof *times);
    if (!times) return 2;
    for (int i = 0; i < connections; at += all[i++].queries)
        if (all[i].queries) memcpy(times + at, all[i].times, all[i].queries * sizeof *times);
    qsort(times, queries, sizeof *times, by_size);
    double median = queries ? times[queries / 2] : 0, last = queries ? times[queries * 99 / 100] : 0;
    printf("queries=%zu seconds=%.3f median=%.1f last=%.1f\n", queries, took, median * 1e6, last * 1e6);
    return faults || !queries;
}

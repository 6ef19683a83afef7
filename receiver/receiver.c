/*
 * A receiver of GTPv2-C over UDP and IPv4: receiver [--answer] [--parts] [PORT1 PORT2 PORT3 PORT4]
 *
 * Build it from the project's folder, after `.ci/static wokshimmer wokpieces` (receiver/build does this too):
 *   gcc -std=c99 -O2 -Iinclude -o receiver receiver/receiver.c target/staticlib/libwokshimmer.a target/staticlib/libwokpieces.a -lpthread
 *
 * One port a kind, S11, S4, S5/S8 and S10; 0, and no ports at all, let the system choose. The first line names the ports. Every datagram is
 * judged and copied in one call, and cleaned; a line of counts comes every second and, on SIGTERM or SIGINT, a last one:
 *   counts|total datagrams N judge (by code, 0 to 21) clean (by code, 0 to 21)
 *   copies (masked copies made: with 0, 11 and 12) copy (octets of the last one) cleaned (octets of the last cleaned copy)
 *   unlike (datagrams judged otherwise in parts than whole)
 *   dropped (datagrams that came and found the socket's buffer full)
 * With --answer each datagram is answered by the five numbers of the judge and by the cleaner's six. This is for tests, so the receiver then listens on
 * loopback only.
 * With --parts a datagram is received into several small buffers and judged in these parts first; answers and counts are the same.
 */
#define _GNU_SOURCE

#include <arpa/inet.h>
#include <errno.h>
#include <linux/sock_diag.h>
#include <netinet/in.h>
#include <poll.h>
#include <pthread.h>
#include <signal.h>
#include <stdio.h>
#include <stdlib.h>
#include <string.h>
#include <sys/socket.h>
#include <sys/uio.h>
#include <time.h>

#include "stack.h"
#include "wokshimmer.h"

#define KINDS 4
#define CODES (WOK_OFF_KIND + 1) /* 0 to 21, of which no datagram gets 14 to 20 */
#define STOP_CHECK_MS 100
#define PARTS 9
#define LARGEST_PART 2184

struct counts {
    unsigned long datagrams;
    unsigned long judge[CODES];
    unsigned long clean[CODES];
    unsigned long copies;
    unsigned long unlike;
    size_t copy_len;
    size_t cleaned_len;
};

/* One octet more than the largest message: a longer datagram, cut to this, is still refused for its size. */
static uint8_t message[WOK_LARGEST_MESSAGE + 1];
static uint8_t table[WOK_TABLE_OCTETS];
/* A call that makes no copy leaves its buffer as it was, so each is always the last one made. */
static uint8_t copy[WOK_LARGEST_MESSAGE];
static uint8_t cleaned[WOK_LARGEST_MESSAGE];
/* What both answer, one after the other. */
static uint8_t answer[WOK_FIVE_OCTETS + WOK_ANSWER_OCTETS];
static uint8_t *const clean_answer = answer + WOK_FIVE_OCTETS;

/* The buffers of --parts: of odd sizes, two of them one octet, and together as long as message. */
static const size_t part_sizes[PARTS] = {1, 3, 4, 9, 1, 64, 331, 1500, LARGEST_PART};
static uint8_t parts[PARTS][LARGEST_PART];
static uint8_t state[WOK_STATE_OCTETS];
static uint8_t parts_five[WOK_FIVE_OCTETS];

static int answers, in_parts;
static struct pollfd ports[KINDS];

/* Both are shared by the two threads, under the lock. */
static pthread_mutex_t lock = PTHREAD_MUTEX_INITIALIZER;
static struct counts counts;
static int stopped;

static void fail(const char *what) {
    perror(what);
    exit(1);
}

/* The last of the cleaner's numbers. */
static size_t clean_len(void) {
    const uint8_t *len = clean_answer + WOK_FIVE_OCTETS;
    return len[0] * 256u + len[1];
}

/* The refusals of judge and copy that leave a copy, and acceptance. */
static int is_copied(uint16_t code) {
    return code == WOK_ACCEPTED || code == WOK_MANDATORY_SHORT || code == WOK_MANDATORY_MISSING;
}

static void count(uint16_t judged, uint16_t clean, int unlike, size_t message_len) {
    pthread_mutex_lock(&lock);
    counts.datagrams++;
    if (judged < CODES) counts.judge[judged]++;
    if (clean < CODES) counts.clean[clean]++;
    if (unlike) counts.unlike++;
    if (is_copied(judged)) {
        counts.copies++;
        counts.copy_len = message_len;
    }
    if (clean == WOK_ACCEPTED) counts.cleaned_len = clean_len();
    pthread_mutex_unlock(&lock);
}

/* How much of a datagram's rest stands in a buffer: none, if the buffers before it held all. */
static size_t part_len(int part, size_t rest) {
    return rest < part_sizes[part] ? rest : part_sizes[part];
}

/* Receives a datagram into the small buffers. */
static ssize_t receive_parts(int port, struct sockaddr_in *sender, socklen_t *sender_len) {
    struct iovec buffers[PARTS];
    struct msghdr datagram;
    for (int i = 0; i < PARTS; i++) buffers[i] = (struct iovec){parts[i], part_sizes[i]};
    memset(&datagram, 0, sizeof datagram);
    datagram.msg_name = sender;
    datagram.msg_namelen = *sender_len;
    datagram.msg_iov = buffers;
    datagram.msg_iovlen = PARTS;
    ssize_t received = recvmsg(port, &datagram, MSG_DONTWAIT);
    *sender_len = datagram.msg_namelen;
    return received;
}

/* Judges what the small buffers hold, one after the other; those past the datagram's end are empty parts. */
static void judge_parts(uint32_t kind, size_t len) {
    uint16_t code = wok_start(kind, state, sizeof state, table, sizeof table);
    for (int i = 0; code == WOK_ACCEPTED && i < PARTS; i++) {
        size_t own = part_len(i, len);
        code = wok_part(state, sizeof state, parts[i], own, table, sizeof table, parts_five, sizeof parts_five);
        len -= own;
    }
    if (code == WOK_ACCEPTED) (void)wok_end(state, sizeof state, table, sizeof table, parts_five, sizeof parts_five);
}

/* The small buffers one behind the other, for the copies, which want a message whole. */
static void join_parts(size_t len) {
    uint8_t *to = message;
    for (int i = 0; i < PARTS; i++) {
        size_t own = part_len(i, len);
        memcpy(to, parts[i], own);
        to += own;
        len -= own;
    }
}

static void take(int port, uint32_t kind) {
    struct sockaddr_in sender;
    socklen_t sender_len = sizeof sender;
    ssize_t received = in_parts ? receive_parts(port, &sender, &sender_len)
                                : recvfrom(port, message, sizeof message, MSG_DONTWAIT, (struct sockaddr *)&sender, &sender_len);
    if (received < 0) return; /* such as a datagram with a bad checksum */
    size_t len = (size_t)received;
    if (in_parts) {
        judge_parts(kind, len);
        join_parts(len);
    }
    uint16_t judged = wok_judge_copy(kind, message, len, table, sizeof table, copy, sizeof copy, answer, WOK_FIVE_OCTETS);
    uint16_t clean = wok_clean(kind, message, len, cleaned, sizeof cleaned, clean_answer, WOK_ANSWER_OCTETS);
    count(judged, clean, in_parts && memcmp(answer, parts_five, WOK_FIVE_OCTETS) != 0, len);
    /* An answer that cannot be sent is the sender's loss. */
    if (answers) (void)sendto(port, answer, sizeof answer, MSG_DONTWAIT, (struct sockaddr *)&sender, sender_len);
}

static int is_stopped(void) {
    pthread_mutex_lock(&lock);
    int is = stopped;
    pthread_mutex_unlock(&lock);
    return is;
}

static void *receive(void *unused) {
    (void)unused;
    while (!is_stopped()) {
        if (poll(ports, KINDS, STOP_CHECK_MS) <= 0) continue;
        for (int i = 0; i < KINDS; i++)
            if (ports[i].revents) take(ports[i].fd, WOK_KIND_S11 + (uint32_t)i);
    }
    return NULL;
}

/* The datagrams that the system dropped since the port was opened, for want of room in its buffer. */
static unsigned long dropped(int port) {
    uint32_t memory[SK_MEMINFO_VARS];
    socklen_t len = sizeof memory;
    memset(memory, 0, sizeof memory);
    if (getsockopt(port, SOL_SOCKET, SO_MEMINFO, memory, &len) != 0) return 0;
    return memory[SK_MEMINFO_DROPS];
}

static void print_codes(const char *name, const unsigned long codes[CODES]) {
    printf(" %s", name);
    for (unsigned code = 0; code < CODES; code++) printf(" %lu", codes[code]);
}

static void print_counts(const char *name) {
    pthread_mutex_lock(&lock);
    struct counts now = counts;
    pthread_mutex_unlock(&lock);
    printf("%s datagrams %lu", name, now.datagrams);
    print_codes("judge", now.judge);
    print_codes("clean", now.clean);
    unsigned long lost = 0;
    for (int i = 0; i < KINDS; i++) lost += dropped(ports[i].fd);
    printf(" copies %lu copy %lu cleaned %lu unlike %lu dropped %lu\n", now.copies, (unsigned long)now.copy_len, (unsigned long)now.cleaned_len,
           now.unlike, lost);
    fflush(stdout);
}

/* Opens a port and answers its number. */
static unsigned open_port(struct pollfd *port, uint16_t number) {
    struct sockaddr_in own;
    socklen_t own_len = sizeof own;
    memset(&own, 0, sizeof own);
    own.sin_family = AF_INET;
    own.sin_port = htons(number);
    own.sin_addr.s_addr = htonl(answers ? INADDR_LOOPBACK : INADDR_ANY);
    port->fd = socket(AF_INET, SOCK_DGRAM, 0);
    port->events = POLLIN;
    if (port->fd < 0) fail("socket");
    if (bind(port->fd, (struct sockaddr *)&own, sizeof own) != 0) {
        fprintf(stderr, "port %u: %s\n", (unsigned)number, strerror(errno));
        exit(1);
    }
    if (getsockname(port->fd, (struct sockaddr *)&own, &own_len) != 0) fail("getsockname");
    return ntohs(own.sin_port);
}

static pthread_t start(void) {
    pthread_t thread;
    pthread_attr_t small;
    if (pthread_attr_init(&small) != 0 || (errno = pthread_attr_setstacksize(&small, STACK_OCTETS)) != 0) fail("stack size");
    if ((errno = pthread_create(&thread, &small, receive, NULL)) != 0) fail("thread");
    pthread_attr_destroy(&small);
    return thread;
}

static uint16_t port_number(const char *text) {
    char *end;
    errno = 0;
    unsigned long number = strtoul(text, &end, 10);
    if (*text < '0' || *text > '9' || *end || errno || number > 65535) {
        fprintf(stderr, "no port: %s\n", text);
        exit(2);
    }
    return (uint16_t)number;
}

int main(int argc, char **argv) {
    char **numbers = argv + (argc > 0);
    answers = *numbers != NULL && strcmp(*numbers, "--answer") == 0;
    numbers += answers;
    in_parts = *numbers != NULL && strcmp(*numbers, "--parts") == 0;
    numbers += in_parts;
    int given = argc - (int)(numbers - argv);
    if (given != 0 && given != KINDS) {
        fprintf(stderr, "usage: receiver [--answer] [--parts] [PORT1 PORT2 PORT3 PORT4]\n");
        return 2;
    }
    unsigned opened[KINDS];
    for (int i = 0; i < KINDS; i++) opened[i] = open_port(&ports[i], given ? port_number(numbers[i]) : 0);

    /* Signals are awaited here and never arrive on the small stack. */
    sigset_t ends;
    sigemptyset(&ends);
    sigaddset(&ends, SIGTERM);
    sigaddset(&ends, SIGINT);
    if ((errno = pthread_sigmask(SIG_BLOCK, &ends, NULL)) != 0) fail("signals");
    pthread_t receiving = start();
    printf("ports %u %u %u %u\n", opened[0], opened[1], opened[2], opened[3]);
    fflush(stdout);

    struct timespec second = {1, 0};
    while (sigtimedwait(&ends, NULL, &second) < 0) print_counts("counts");
    pthread_mutex_lock(&lock);
    stopped = 1;
    pthread_mutex_unlock(&lock);
    pthread_join(receiving, NULL);
    print_counts("total");
    return 0;
}

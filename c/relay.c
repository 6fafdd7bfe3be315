/* Carries frames between a TAP device of Linux and a program, or a second device, and back. On the way it can lose, delay,
 * reorder and repeat them, since a kernel may have no netem. By SIGTERM it ends, and the program too, and prints what it
 * carried. If the program ends before that, its status is 1.
 *
 *   relay [OPTION..] DEVICE PROGRAM [WORD..]
 *   relay [OPTION..] -d OTHER DEVICE
 *
 * PROGRAM has the frames as lines of hex on its standard input and output. Moments are in microseconds since the relay
 * began, and count up.
 *
 *   MOMENT FRAME     to the program: a frame that came at this moment
 *   MOMENT           to the program: nothing came; it is what it asked for by 'at'
 *   FRAME            from the program: a frame that it sends
 *   at MOMENT        from the program: when it wants to be told the moment next, if no frame comes before that;
 *                    the latest one counts, until it is told a moment
 *   at never         the same, if nothing is due by itself
 *
 * Options:
 *   -p             lines without moments, as udp_echo has them: frames alone, and no 'at'
 *   -s             the program has the frames at descriptor 3, one a read and a write, and standard input and output are ours
 *   -d OTHER       no program, but a second device; -n FILE is its network namespace, as /proc/PID/ns/net
 *   -t, -f, -b     what happens to frames to the program, from it, both ways: words as loss=1,delay=25,reorder=10,repeat=1.
 *                  loss, reorder and repeat are chances in percent, delay is in milliseconds. A frame that is reordered is
 *                  held back for some time up to hold (2 ms if not told)
 *   -r SEED        of these chances
 *   -w WRONG       does something wrong on purpose; relay_wrong.h says what there is
 */
#define _GNU_SOURCE
#include "relay_wrong.h"

#include <errno.h>
#include <fcntl.h>
#include <linux/if.h>
#include <linux/if_tun.h>
#include <poll.h>
#include <sched.h>
#include <signal.h>
#include <stdio.h>
#include <stdlib.h>
#include <sys/ioctl.h>
#include <sys/prctl.h>
#include <sys/socket.h>
#include <sys/wait.h>
#include <time.h>
#include <unistd.h>

enum { LONGEST = 2048, SLOTS = 16384, ROOM = 1 << 20, BURST = 64 };
#define NEVER INT64_MAX

enum form { LINES, BARE_LINES, FRAMES };

/* What happens to the frames of one way, and what happened. */
struct way {
    double loss, repeat, reorder; /* chances, from 0 to 1 */
    int64_t delay, hold;
    uint64_t random;
    int64_t first, last; /* moments of frames that were delivered */
    unsigned long frames, octets, lost, repeated, held, crowded;
};

static struct way ways[] = {{.hold = 2000}, {.hold = 2000}};

/* Frames that wait, in a heap: the earliest first, and of one moment that which came first. */
static struct waiting {
    int64_t at;
    unsigned long number;
    int way, length;
    uint8_t *frame;
} heap[SLOTS];
static int waiting;
static unsigned long number;

static enum form form = LINES;
static int device, from_program, to_program; /* the latter are one descriptor where frames are read and written */
static char written[ROOM];                   /* what the program's pipe hasn't taken yet */
static size_t written_length;
static int64_t told_at = NEVER; /* what the program said by 'at' */

static volatile sig_atomic_t is_over;
static int has_ended; /* the program, by itself */

static void on_signal(int unused) {
    (void)unused;
    is_over = 1;
}

static void fail(const char *what) {
    perror(what);
    exit(1);
}

static int64_t now_micros(void) {
    static int64_t begin;
    struct timespec t;
    clock_gettime(CLOCK_MONOTONIC, &t);
    int64_t now = (int64_t)t.tv_sec * 1000000 + t.tv_nsec / 1000;
    if (begin == 0) begin = now;
    return now - begin;
}

/* A number from 0 to 1, by splitmix64. */
static double drawn(struct way *w) {
    uint64_t z = w->random += 0x9e3779b97f4a7c15u;
    z = (z ^ z >> 30) * 0xbf58476d1ce4e5b9u;
    z = (z ^ z >> 27) * 0x94d049bb133111ebu;
    return (double)((z ^ z >> 31) >> 11) / 9007199254740992.0;
}

/* The heap. */

static int is_earlier(const struct waiting *a, const struct waiting *b) {
    return a->at < b->at || (a->at == b->at && a->number < b->number);
}

static void swap(int a, int b) {
    struct waiting w = heap[a];
    heap[a] = heap[b], heap[b] = w;
}

/* Keeps a frame until a moment. Whether there was room. */
static int keep(int way, int64_t at, const uint8_t *frame, int length) {
    if (waiting == SLOTS) return 0;
    int i = waiting++;
    if (!heap[i].frame && !(heap[i].frame = malloc(LONGEST))) fail("memory");
    heap[i].at = at, heap[i].number = number++, heap[i].way = way, heap[i].length = length;
    memcpy(heap[i].frame, frame, (size_t)length);
    for (; i > 0 && is_earlier(&heap[i], &heap[(i - 1) / 2]); i = (i - 1) / 2) swap(i, (i - 1) / 2);
    return 1;
}

/* Puts the first one out of the heap, to where its memory is used again. */
static const struct waiting *take_first(void) {
    swap(0, --waiting);
    for (int i = 0;;) {
        int least = i;
        for (int child = 2 * i + 1; child <= 2 * i + 2 && child < waiting; child++)
            if (is_earlier(&heap[child], &heap[least])) least = child;
        if (least == i) return &heap[waiting];
        swap(i, least), i = least;
    }
}

/* The two ends. */

static void flush_written(void) {
    ssize_t n = written_length > 0 ? write(to_program, written, written_length) : 0;
    if (n < 0 && errno != EAGAIN) has_ended = 1;
    if (n <= 0) return;
    written_length -= (size_t)n;
    memmove(written, written + n, written_length);
}

/* A line for the program: a moment, a frame, or both. Whether there is room. */
static int write_line(int64_t now, const uint8_t *frame, int length) {
    static const char digits[] = "0123456789abcdef";
    if (written_length + 2 * (size_t)length + 32 > ROOM) return 0;
    char *at = written + written_length;
    if (form == LINES) at += sprintf(at, length ? "%lld " : "%lld", (long long)now), told_at = NEVER;
    for (int i = 0; i < length; i++) *at++ = digits[frame[i] >> 4], *at++ = digits[frame[i] & 15];
    *at++ = '\n';
    written_length = (size_t)(at - written);
    return 1;
}

static void deliver(int way, const uint8_t *frame, int length) {
    struct way *w = &ways[way];
    int is_taken;
    if (way == TO && form != FRAMES) is_taken = write_line(now_micros(), frame, length);
    else is_taken = write(way == TO ? to_program : device, frame, (size_t)length) == length;
    if (!is_taken) {
        w->crowded++;
        return;
    }
    w->last = now_micros();
    if (w->frames++ == 0) w->first = w->last;
    w->octets += (unsigned long)length;
}

/* Carries a frame that came, now or later. */
static void carry(int way, uint8_t *frame, int length) {
    struct way *w = &ways[way];
    if (length < 14 || length > LONGEST) return;
    int copies = copies_after_wrong(way, frame, (size_t)length);
    if (w->loss > 0 && drawn(w) < w->loss) {
        w->lost++;
        return;
    }
    if (w->repeat > 0 && drawn(w) < w->repeat) copies++, w->repeated++;
    for (; copies > 0; copies--) {
        int is_held = w->reorder > 0 && drawn(w) < w->reorder;
        int64_t wait = w->delay + (is_held ? (int64_t)((double)w->hold * drawn(w)) + 1 : 0);
        w->held += (unsigned long)is_held;
        if (wait == 0) deliver(way, frame, length);
        else if (!keep(way, now_micros() + wait, frame, length)) w->crowded++;
    }
}

static void carry_frames(int way, int in) {
    static uint8_t frame[65536];
    for (int i = 0; i < BURST; i++) {
        ssize_t n = read(in, frame, sizeof frame);
        if (n == 0 && way == FROM) has_ended = 1;
        if (n <= 0) return;
        carry(way, frame, (int)n);
    }
}

static int digit(char c) {
    return c >= '0' && c <= '9' ? c - '0' : c >= 'a' && c <= 'f' ? c - 'a' + 10 : c >= 'A' && c <= 'F' ? c - 'A' + 10 : -1;
}

/* What the program wrote: a frame, a moment, or something for who reads along. */
static void take_line(const char *line) {
    static uint8_t frame[LONGEST];
    int length = 0;
    long long at;
    for (const char *c = line; length < LONGEST && digit(c[0]) >= 0 && digit(c[1]) >= 0; c += 2)
        frame[length++] = (uint8_t)(digit(c[0]) << 4 | digit(c[1]));
    if (length >= 14 && line[2 * length] == 0) carry(FROM, frame, length);
    else if (strcmp(line, "at never") == 0) told_at = NEVER;
    else if (sscanf(line, "at %lld", &at) == 1) told_at = at;
    else fprintf(stderr, "%s\n", line);
}

static void carry_lines(void) {
    static char text[ROOM];
    static size_t length;
    ssize_t n = read(from_program, text + length, sizeof text - 1 - length);
    if (n == 0 || (n < 0 && errno != EAGAIN)) has_ended = 1;
    if (n <= 0) return;
    length += (size_t)n;
    char *begin = text, *end;
    while ((end = memchr(begin, '\n', length - (size_t)(begin - text)))) {
        *end = 0;
        take_line(begin);
        begin = end + 1;
    }
    length -= (size_t)(begin - text);
    memmove(text, begin, length);
    if (length >= sizeof text - 1) fprintf(stderr, "relay: a line without an end\n"), has_ended = 1;
}

/* Sends on what is due, and tells the program the moment if it asked for that. Returns what is due next. */
static int64_t send_due(void) {
    int64_t now = now_micros();
    while (waiting > 0 && heap[0].at <= now) {
        const struct waiting *w = take_first();
        deliver(w->way, w->frame, w->length);
    }
    if (form == LINES && told_at <= now) write_line(now, NULL, 0);
    flush_written();
    return waiting > 0 && heap[0].at < told_at ? heap[0].at : told_at;
}

static void run(void) {
    while (!is_over && !has_ended) {
        int64_t at = send_due(), rest = at - now_micros();
        struct timespec wait = {rest < 0 ? 0 : (time_t)(rest / 1000000), rest < 0 ? 0 : (long)(rest % 1000000 * 1000)};
        /* Where the program doesn't keep up, frames stay in the device. */
        struct pollfd ends[] = {{.fd = device, .events = written_length < ROOM / 2 ? POLLIN : 0},
                                {.fd = from_program, .events = POLLIN},
                                {.fd = written_length > 0 ? to_program : -1, .events = POLLOUT}};
        if (ppoll(ends, 3, at == NEVER ? NULL : &wait, NULL) < 0) continue;
        if (ends[0].revents) carry_frames(TO, device);
        if (ends[1].revents && form == FRAMES) carry_frames(FROM, from_program);
        else if (ends[1].revents) carry_lines();
    }
}

/* Beginning. */

/* A device, in this network namespace or another one. */
static int open_device(const char *name, const char *namespace) {
    struct ifreq wanted;
    int here = open("/proc/self/ns/net", O_RDONLY | O_CLOEXEC), there = namespace ? open(namespace, O_RDONLY | O_CLOEXEC) : here;
    memset(&wanted, 0, sizeof wanted);
    wanted.ifr_flags = IFF_TAP | IFF_NO_PI;
    strncpy(wanted.ifr_name, name, IFNAMSIZ - 1);
    if (setns(there, CLONE_NEWNET) < 0) fail(namespace);
    int tap = open("/dev/net/tun", O_RDWR | O_NONBLOCK | O_CLOEXEC);
    if (tap < 0 || ioctl(tap, TUNSETIFF, &wanted) < 0) fail(name);
    if (setns(here, CLONE_NEWNET) < 0) fail("namespace");
    return tap;
}

/* Starts the program with its end of two pipes, or of a pair of sockets. */
static pid_t start(char **words) {
    int in[2], out[2];
    if (form == FRAMES) {
        const int room = 4 * ROOM;
        if (socketpair(AF_UNIX, SOCK_SEQPACKET | SOCK_CLOEXEC | SOCK_NONBLOCK, 0, in)) fail("socket");
        for (int i = 0; i < 2; i++) setsockopt(in[i], SOL_SOCKET, SO_SNDBUFFORCE, &room, sizeof room);
        out[0] = in[1], out[1] = in[0];
    } else if (pipe2(in, O_CLOEXEC) || pipe2(out, O_CLOEXEC)) fail("pipe");
    pid_t child = fork();
    if (child < 0) fail("fork");
    if (child == 0) {
        prctl(PR_SET_PDEATHSIG, SIGTERM);
        if (form == FRAMES) {
            if (in[0] == 3 ? fcntl(3, F_SETFD, 0) < 0 : dup2(in[0], 3) < 0) fail("descriptor 3");
        } else if (dup2(in[0], 0) < 0 || dup2(out[1], 1) < 0) fail("standard streams");
        execvp(words[0], words);
        fail(words[0]);
    }
    close(in[0]);
    if (form != FRAMES) {
        close(out[1]);
        fcntl(in[1], F_SETPIPE_SZ, ROOM), fcntl(out[0], F_SETPIPE_SZ, ROOM);
    }
    to_program = in[1], from_program = out[0];
    fcntl(to_program, F_SETFL, O_NONBLOCK), fcntl(from_program, F_SETFL, O_NONBLOCK);
    return child;
}

/* What happens to frames of a way, by words as loss=1,delay=25. */
static void set(struct way *w, const char *words) {
    char name[16];
    double value;
    for (int used; *words; words += used) {
        if (sscanf(words, "%15[a-z]=%lf%n", name, &value, &used) != 2 || value < 0) break;
        if (strcmp(name, "loss") == 0) w->loss = value / 100;
        else if (strcmp(name, "repeat") == 0) w->repeat = value / 100;
        else if (strcmp(name, "reorder") == 0) w->reorder = value / 100;
        else if (strcmp(name, "delay") == 0) w->delay = (int64_t)(value * 1000);
        else if (strcmp(name, "hold") == 0) w->hold = (int64_t)(value * 1000);
        else break;
        if (words[used] == ',') used++;
    }
    if (*words) fprintf(stderr, "relay: %s: what is that?\n", words), exit(2);
}

/* What was carried between the first frame and the last one. */
static void tell(const char *what, const struct way *w) {
    double seconds = (double)(w->last - w->first + 1) * 1e-6;
    printf("%s: %lu frames, %lu octets in %.2f s, %.0f a second, %.1f Mbit/s; %lu lost, %lu repeated, %lu held back, %lu without room\n",
           what, w->frames, w->octets, seconds, (double)w->frames / seconds, (double)w->octets * 8e-6 / seconds, w->lost,
           w->repeated, w->held, w->crowded);
}

int main(int argc, char **argv) {
    const char *other = NULL, *namespace = NULL;
    uint64_t seed = 1;
    for (int option; (option = getopt(argc, argv, "+psd:n:t:f:b:r:w:")) != -1;) {
        if (option == 'p') form = BARE_LINES;
        else if (option == 's') form = FRAMES;
        else if (option == 'd') other = optarg, form = FRAMES;
        else if (option == 'n') namespace = optarg;
        else if (option == 'r') seed = strtoull(optarg, NULL, 10);
        else if (option == 'w' && choose_wrong(optarg)) continue;
        else if (option == 't' || option == 'f') set(&ways[option == 't' ? TO : FROM], optarg);
        else if (option == 'b') set(&ways[TO], optarg), set(&ways[FROM], optarg);
        else return 2;
    }
    if (argc - optind < (other ? 1 : 2)) {
        fprintf(stderr, "usage: relay [OPTION..] DEVICE PROGRAM [WORD..], or relay [OPTION..] -d OTHER DEVICE\n");
        return 2;
    }
    struct sigaction end = {.sa_handler = on_signal};
    sigaction(SIGTERM, &end, NULL), sigaction(SIGINT, &end, NULL);
    signal(SIGPIPE, SIG_IGN);
    ways[TO].random = seed, ways[FROM].random = seed ^ 0x5555555555555555u;
    device = open_device(argv[optind], NULL);
    pid_t child = other ? 0 : start(argv + optind + 1);
    if (other) to_program = from_program = open_device(other, namespace);
    now_micros(); /* moments count from here */
    run();
    tell("to", &ways[TO]), tell("from", &ways[FROM]);
    printf("%.2f s of a processor\n", (double)clock() / CLOCKS_PER_SEC);
    if (child == 0) return 0;
    if (has_ended) fprintf(stderr, "relay: the program ended\n");
    close(to_program), close(from_program);
    kill(child, SIGTERM);
    if (waitpid(child, NULL, 0) < 0) fail("the program");
    return has_ended;
}

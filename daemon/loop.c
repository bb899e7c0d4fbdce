/* loop: one thread that sleeps until a descriptor has an event or a moment has come. */
#include "daemon.h"

#include <signal.h>
#include <sys/signalfd.h>
#include <sys/timerfd.h>
#include <time.h>

enum { EVENTS = 64, GATHER = 5000 /* microseconds */ };

static int epoll, signals, timer;
static loop_act *acts[LOOP_KINDS];
static loop_act *take_signal;
static bool is_ended;

void loop_await(int fd, enum loop_kind kind, uint32_t number, uint32_t events, loop_act *act) {
    struct epoll_event event = {.events = events, .data.u64 = (uint64_t)kind << 32 | number};
    acts[kind] = act;
    if (epoll_ctl(epoll, EPOLL_CTL_MOD, fd, &event) == 0) return;
    if (errno != ENOENT || epoll_ctl(epoll, EPOLL_CTL_ADD, fd, &event) != 0) fail("epoll", strerror(errno));
}

void loop_end(void) { is_ended = true; }

static void take_signals(uint32_t number UNUSED, uint64_t now) {
    struct signalfd_siginfo signal;
    while (read(signals, &signal, sizeof signal) == sizeof signal) take_signal(signal.ssi_signo, now);
}

void loop_open(loop_act *take) {
    static const int taken[] = {SIGTERM, SIGINT, SIGPIPE, SIGHUP, SIGUSR1};
    sigset_t set;
    sigemptyset(&set);
    for (size_t i = 0; i < COUNT(taken); i++) sigaddset(&set, taken[i]);
    sigprocmask(SIG_BLOCK, &set, NULL);
    take_signal = take;
    epoll = epoll_create1(EPOLL_CLOEXEC);
    signals = signalfd(-1, &set, SFD_NONBLOCK | SFD_CLOEXEC);
    timer = timerfd_create(CLOCK_MONOTONIC, TFD_NONBLOCK | TFD_CLOEXEC);
    loop_await(signals, LOOP_SIGNALS, 0, EPOLLIN, take_signals);
    loop_await(timer, LOOP_TIMER, 0, EPOLLIN, NULL); /* which only ends the sleep */
}

pid_t loop_fork(void) {
    sigset_t none;
    pid_t child = fork();
    sigemptyset(&none);
    if (child == 0) sigprocmask(SIG_SETMASK, &none, NULL);
    return child;
}

/* Sets the timer for this moment: it has no event before, and then one until it is set again. (A time of 0 would stop it.) One that is
 * set for it already, and is still to come, stays. */
static void set_timer(uint64_t moment) {
    static uint64_t set_for;
    uint64_t now = clock_now(), left = moment > now ? moment - now : 1;
    if (moment == set_for && moment > now) return;
    set_for = moment;
    struct itimerspec time = {.it_value = {(time_t)(left / 1000000), (long)(left % 1000000) * 1000}};
    timerfd_settime(timer, 0, &time, NULL);
}

static void carry_out(const struct epoll_event *events, int count, bool are_packets) {
    for (int i = 0; i < count; i++) {
        enum loop_kind kind = (enum loop_kind)(events[i].data.u64 >> 32);
        if ((kind == LOOP_PACKETS) == are_packets && acts[kind]) acts[kind]((uint32_t)events[i].data.u64, clock_now());
    }
}

/* After two rounds within GATHER sleeps for as long, but not beyond the moment at which something is due. What comes meanwhile is
 * gathered: a packet has the moment at which the kernel received it. Whether that moment has come. */
static bool gather(uint64_t last_round, uint64_t due) {
    uint64_t now = clock_now(), left = due > now ? due - now : 0, sleep = left < GATHER ? left : GATHER;
    if (now - last_round >= GATHER) return left == 0;
    nanosleep(&(struct timespec){.tv_nsec = (long)sleep * 1000}, NULL);
    return sleep == left;
}

void loop_run(loop_round *round) {
    struct epoll_event events[EVENTS];
    uint64_t last = 0;
    while (!is_ended) {
        uint64_t now = clock_now(), due = round(now);
        bool is_due = gather(last, due);
        last = now;
        if (!is_due) set_timer(due);
        int count = epoll_wait(epoll, events, EVENTS, is_due ? 0 : -1);
        carry_out(events, count, true);
        carry_out(events, count, false);
    }
}

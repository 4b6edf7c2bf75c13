/* What the doors share: see guard.h. */
#define _GNU_SOURCE
#include "guard.h"

#include <inttypes.h>
#include <setjmp.h>
#include <signal.h>
#include <stdio.h>
#include <stdlib.h>
#include <sys/time.h>

enum { REPORTS = 5 }; /* findings told in full; the rest is only counted */

struct door_counts door_counts;
int door_patience = 120;
uint64_t door_enough = UINT64_MAX;
const char *door_cases_option = "--networks";

static const char *check_name = "nothing";
static uint64_t check_number;
static const char *check_replay = "";

/* ---- traps ---- */

static sigjmp_buf before_call;
static volatile sig_atomic_t in_call;
static volatile sig_atomic_t seconds_in_call;

static void on_trap(int signal_number)
{
    if (in_call)
        siglongjmp(before_call, signal_number);
    signal(signal_number, SIG_DFL);
    raise(signal_number);
}

static void on_second(int signal_number)
{
    if (in_call && ++seconds_in_call > door_patience)
        siglongjmp(before_call, signal_number);
}

static void handle(int signal_number, void (*handler)(int))
{
    struct sigaction action = {.sa_handler = handler, .sa_flags = SA_NODEFER | SA_RESTART};
    sigaction(signal_number, &action, NULL);
}

void guard_open(void)
{
    handle(SIGSEGV, on_trap);
    handle(SIGBUS, on_trap);
    handle(SIGILL, on_trap);
    handle(SIGFPE, on_trap);
    handle(SIGTRAP, on_trap);
    handle(SIGABRT, on_trap);
    handle(SIGALRM, on_second);
    struct itimerval each_second = {{1, 0}, {1, 0}};
    setitimer(ITIMER_REAL, &each_second, NULL);
}

int guard_call(void (*make)(const void *call), const void *call)
{
    int trapped = sigsetjmp(before_call, 0);
    if (trapped == 0) {
        seconds_in_call = 0;
        in_call = 1;
        make(call);
    }
    in_call = 0;
    return trapped;
}

/* ---- reports ---- */

void door_now_checking(const char *check, uint64_t number, const char *replay)
{
    check_name = check;
    check_number = number;
    check_replay = replay;
}

static uint64_t findings(void)
{
    return door_counts.differences + door_counts.traps + door_counts.stray;
}

bool guard_tells(const char *what)
{
    if (findings() >= REPORTS)
        return false;
    printf("\n%s: %s, number %" PRIu64 "; replay: host %s", what, check_name, check_number,
           check_name);
    if (check_replay[0] != '\0')
        printf(" %s --from %" PRIu64 " %s 1", check_replay, check_number, door_cases_option);
    printf("\n");
    return true;
}

bool guard_tells_trap(int trapped)
{
    bool tells = guard_tells(trapped == SIGALRM ? "TRAP (the call runs on)" : "TRAP");
    if (tells)
        printf("  signal %d\n", trapped);
    return tells;
}

void guard_found(uint64_t *count)
{
    ++*count;
    if (findings() >= door_enough) {
        printf("the check ends here: %" PRIu64 " differences, %" PRIu64 " traps, %" PRIu64
               " stray writes\n", door_counts.differences, door_counts.traps, door_counts.stray);
        exit(1);
    }
}

void door_difference(const char *what)
{
    if (guard_tells("DIFFERENCE"))
        printf("  %s\n", what);
    guard_found(&door_counts.differences);
}

bool door_clean(void)
{
    return findings() == 0;
}

/* The call being made with its inputs, and the report of the first difference. */
#define _DEFAULT_SOURCE
#include "comparing.h"

#include <signal.h>
#include <stdlib.h>
#include <string.h>
#include <unistd.h>

enum { MOST_INPUTS = 16 };

static const char *current_call = "none";
static const char *sides[2] = {"independent", "library"};
static const struct trial *current_trial;
static size_t inputs;
static struct {
    const char *name;
    const uint8_t *bytes;
    uint64_t number;
} input[MOST_INPUTS];

void tell_of(struct answer *answer, const char *name, size_t index, uint64_t value)
{
    if (answer->lines == ANSWER_LINES)
        abort();
    answer->line[answer->lines].name = name;
    answer->line[answer->lines].index = index;
    answer->line[answer->lines].value = value;
    answer->lines++;
}

void tell(struct answer *answer, const char *name, uint64_t value)
{
    tell_of(answer, name, SIZE_MAX, value);
}

/* The two whose answers are compared: the two programs, unless a call is held against the same one in another sequence. */
void name_sides(const char *one, const char *other)
{
    sides[0] = one;
    sides[1] = other;
}

void calling(struct trial *t, const char *call)
{
    name_sides("independent", "library");
    current_call = call;
    current_trial = t;
    inputs = 0;
}

/* The bytes must stay as they are until the call's answers are compared. */
void with_bytes(const char *name, const uint8_t *bytes, size_t size)
{
    if (inputs == MOST_INPUTS)
        abort();
    input[inputs].name = name;
    input[inputs].bytes = bytes ? bytes : (const uint8_t *)"";
    input[inputs].number = size;
    inputs++;
}

void with_number(const char *name, uint64_t number)
{
    with_bytes(name, (const uint8_t *)"", number);
    input[inputs - 1].bytes = NULL;
}

static void print_bytes(const char *name, const uint8_t *bytes, size_t size)
{
    printf("  %s, %zu bytes:", name, size);
    for (size_t i = 0; i < size; i++)
        printf(" %02X", bytes[i]);
    printf("\n");
}

static void print_call(void)
{
    printf("call %s\n", current_call);
    for (size_t i = 0; i < inputs; i++) {
        if (input[i].bytes)
            print_bytes(input[i].name, input[i].bytes, input[i].number);
        else
            printf("  %s %llu\n", input[i].name, (unsigned long long)input[i].number);
    }
}

static void print_name(const struct answer *answer, size_t line)
{
    if (answer->line[line].index == SIZE_MAX)
        printf("    %s", answer->line[line].name);
    else
        printf("    %s %zu", answer->line[line].name, answer->line[line].index);
}

/* Prints the lines that differ, or all of them that are not 0. */
static void print_answers(const struct answer *mine, const struct answer *theirs, bool all)
{
    for (size_t i = 0; i < mine->lines; i++) {
        uint64_t a = mine->line[i].value;
        uint64_t b = theirs->line[i].value;
        if (a == b && !(all && a != 0))
            continue;
        print_name(mine, i);
        printf(": %s %llu, %s %llu%s\n", sides[0], (unsigned long long)a, sides[1], (unsigned long long)b,
               a == b ? "" : "   <- differs");
    }
}

static void print_trial(const struct trial *t)
{
    printf("seed %llu, case %llu: ", (unsigned long long)t->seed, (unsigned long long)t->number);
}

static void stop(const struct trial *t)
{
    printf("again alone: tests/compare %llu %llu %llu\n", (unsigned long long)t->seed, (unsigned long long)t->number + 1,
           (unsigned long long)t->number);
    fflush(stdout);
    exit(1);
}

void differ(struct trial *t, const char *what)
{
    print_trial(t);
    printf("%s\n", what);
    print_call();
    stop(t);
}

void differ_bytes(struct trial *t, const char *what, const uint8_t *mine, const uint8_t *theirs, size_t size)
{
    print_trial(t);
    printf("the bytes of %s differ\n", what);
    print_call();
    print_bytes(sides[0], mine, size);
    print_bytes(sides[1], theirs, size);
    stop(t);
}

static bool same(const struct answer *mine, const struct answer *theirs)
{
    for (size_t i = 0; i < mine->lines; i++) {
        if (mine->line[i].value != theirs->line[i].value)
            return false;
    }
    return mine->lines == theirs->lines;
}

void agree(struct trial *t, const struct answer *mine, const struct answer *theirs)
{
    bool are_same = same(mine, theirs);
    if (!are_same) {
        print_trial(t);
        printf("the answers differ\n");
    }
    if (!are_same || t->show) {
        print_call();
        print_answers(mine, theirs, true);
    }
    if (!are_same)
        stop(t);
}

/* An answer that is held against another only later. */
void show_answer(struct trial *t, const struct answer *answer)
{
    if (!t->show)
        return;
    print_call();
    for (size_t i = 0; i < answer->lines; i++) {
        if (answer->line[i].value == 0)
            continue;
        print_name(answer, i);
        printf(": %llu\n", (unsigned long long)answer->line[i].value);
    }
}

void show_bytes(const char *name, const uint8_t *bytes, size_t size)
{
    printf("  after it:");
    print_bytes(name, bytes, size);
}

/* A call that leaves its buffers, or that has not ended when the clock rings twice in one case, is a difference too. */
static void on_signal(int signal_number)
{
    static uint64_t rung = UINT64_MAX;
    if (signal_number == SIGALRM && current_trial && current_trial->number != rung) {
        rung = current_trial->number;
        alarm(20);
        return;
    }
    if (current_trial)
        print_trial(current_trial);
    printf("signal %d: %s\n", signal_number, signal_number == SIGALRM ? "a call does not end" : "a call left its buffers");
    print_call();
    if (current_trial)
        stop(current_trial);
    exit(1);
}

void watch_signals(void)
{
    signal(SIGSEGV, on_signal);
    signal(SIGBUS, on_signal);
    signal(SIGILL, on_signal);
    signal(SIGFPE, on_signal);
    signal(SIGABRT, on_signal);
    signal(SIGALRM, on_signal);
    alarm(20);
}

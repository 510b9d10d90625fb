/* How much stack each call takes: it runs on a stack that was filled with a pattern. Fails above 16 KB, at 64 grants by either rules
 * and at 4,096 grants by Ceph's. */
#define _XOPEN_SOURCE 700
#include "sigmuyap.h"

#include <pthread.h>
#include <stdio.h>
#include <stdlib.h>

#define SIZE ((size_t)1 << 20)
#define MOST (16 << 10)
#define ROOM (1 << 20)

static unsigned char *stack;
static char text[ROOM], out[ROOM];
static size_t text_len, needed;
static uint32_t rules, answer;
static sig_ticket ticket = SIG_NO_TICKET, other = SIG_NO_TICKET;
static sig_request request;

static const sig_pair pairs[] = { { SIG_TEXT("k"), SIG_TEXT("w") } };
static const sig_application applications[] = { { SIG_TEXT("app"), pairs, 1 } };
static const sig_call class_call[] = { { SIG_TEXT("counter"), SIG_TEXT("get"), true, false, true } };

static void *nothing(void *unused)
{
    return unused;
}

static void *parse(void *unused)
{
    sig_fault fault;
    answer = sig_ticket_parse(&ticket, rules, text, text_len, false, 0, &fault);
    return unused;
}

static void *judge(void *unused)
{
    answer = sig_judge(&ticket, &request);
    return unused;
}

static void *judge_all(void *unused)
{
    uint8_t answers[1] = { 0 };
    answer = sig_judge_all(&ticket, &request, 1, answers, 1);
    return unused;
}

static void *judge_with(void *unused)
{
    answer = sig_judge_with(&ticket, &request, applications, 1, class_call, 1);
    return unused;
}

static void *report(void *unused)
{
    answer = sig_report(&ticket, &request, applications, 1, class_call, 1, out, sizeof out, &needed);
    return unused;
}

static void *print_text(void *unused)
{
    answer = sig_ticket_text(&ticket, out, sizeof out, &needed);
    return unused;
}

static void *share(void *unused)
{
    answer = sig_ticket_share(&ticket, &other);
    return unused;
}

static void *widening(void *unused)
{
    answer = sig_widening(&other, &ticket, out, sizeof out, &needed);
    return unused;
}

/* Frees both handles: the second one drops the grants. */
static void *drop(void *unused)
{
    sig_ticket_free(&other);
    sig_ticket_free(&ticket);
    return unused;
}

/* The calls in the order in which they are measured. Comparing 4,096 grants with themselves takes minutes, so it is not done. */
typedef struct measured {
    const char *name;
    void *(*run)(void *);
    bool at_many;
} measured;

static const measured calls[] = { { "parse", parse, true }, { "judge", judge, true }, { "judge_all", judge_all, true },
    { "judge_with", judge_with, true }, { "report", report, true }, { "text", print_text, true }, { "share", share, true },
    { "widening", widening, false }, { "free", drop, true } };

static size_t used(void *(*run)(void *))
{
    pthread_attr_t attributes;
    pthread_t thread;
    memset(stack, 0xAA, SIZE);
    if (pthread_attr_init(&attributes) || pthread_attr_setstack(&attributes, stack, SIZE) || pthread_create(&thread, &attributes, run, NULL)
        || pthread_join(thread, NULL))
        exit(2);
    size_t i = 0;
    while (stack[i] == 0xAA)
        i++;
    return SIZE - i;
}

/* The most stack that a call takes on a text of so many grants. */
static size_t most_at(const char *grant, int count)
{
    size_t most = 0, before = used(nothing);
    text_len = 0;
    for (int k = 0; k < count; k++)
        text_len += (size_t)sprintf(text + text_len, "%s%s", k ? ", " : "", grant);
    for (size_t i = 0; i < sizeof calls / sizeof calls[0]; i++) {
        if (count > 64 && !calls[i].at_many)
            continue;
        answer = 0;
        size_t bytes = used(calls[i].run) - before;
        if (answer > SIG_ALLOW && answer != SIG_DEPENDS) {
            fprintf(stderr, "stack: %s answers %u at %d of %s\n", calls[i].name, answer, count, grant);
            exit(1);
        }
        if (bytes > MOST)
            fprintf(stderr, "stack: %s takes %zu bytes at %d of %s\n", calls[i].name, bytes, count, grant);
        if (bytes > most)
            most = bytes;
    }
    return most;
}

static size_t max(size_t a, size_t b)
{
    return a > b ? a : b;
}

int main(void)
{
    static const char *const both[] = { "allow r pool=p", "profile rbd pool=q", "allow rw tag app k=v", "profile rbd" };
    static const char *const ceph[] = { "allow r pool=p", "profile read-only pool=q", "allow rw network 10.0.0.0/8" };
    size_t few = 0, many = 0;
    stack = aligned_alloc(4096, SIZE);
    if (stack == NULL)
        return 2;
    request = sig_request_of(sig_text_of_string("no pool"), sig_text_of_string("a"), sig_text_of_string("b"));
    request.reads = true;
    for (rules = SIG_RULES; rules <= SIG_RULES_CEPH; rules++)
        for (int i = 0; i < 4; i++)
            few = max(few, most_at(both[i], 64));
    rules = SIG_RULES_CEPH;
    for (int i = 0; i < 3; i++) {
        few = max(few, most_at(ceph[i], 64));
        many = max(many, most_at(ceph[i], 4096));
    }
    free(stack);
    printf("%zu bytes of stack at 64 grants, %zu at 4,096\n", few, many);
    return few > MOST || many > MOST;
}

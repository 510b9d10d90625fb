/* Sigmuyap's access gate for C and C++ programs: which requests does a Ceph OSD capability text allow?
 *
 *     sig_ticket ticket = SIG_NO_TICKET;
 *     sig_fault fault;
 *     if (sig_parse(&ticket, "allow rw pool=data", &fault) == SIG_OK) {   // sig_parse_ceph reads by Ceph's rules
 *         sig_request request = { .pool = SIG_TEXT("data"), .object = SIG_TEXT("x"), .from = SIG_TEXT(""), .reads = true };
 *         ...
 *
 * docs/guide/LIBRARY.md has whole programs. Compare an answer with SIG_ALLOW: every other number, errors included, allows nothing.
 *
 * What a caller owes. Nothing checks it, and a program that breaks it has undefined behaviour:
 *  - Every pointer parameter is not null, points to what its type says, and stays valid during the call. `at` of a sig_text is
 *    never null: use sig_text_of, SIG_TEXT or SIG_NO_TEXT for the empty one. An empty list also has a pointer that is not null.
 *  - Nobody writes the memory that a call reads while it runs. The parameters that a call writes (handles, buffers, `needed`,
 *    `fault`) do not overlap each other or what it reads: `from` and `to` of sig_ticket_share are two handles, and so are `old`
 *    and `new_` of sig_widening.
 *  - A buffer has `out_len` bytes, all of them initialized; so have the `answers` of sig_judge_all.
 *  - A sig_ticket is SIG_NO_TICKET or as a function of this header left it. A byte copy of a handle is not a second handle:
 *    sig_ticket_share makes one. Nobody reads or writes `at`.
 *  - One call at a time uses a handle. A handle may move to another thread, ordered by a lock, a thread's start or a join. Two
 *    threads may use two handles at once, also if the handles share a ticket.
 *  - A bool is 0 or 1.
 *  - malloc, realloc and free belong together and align as the C standard says.
 *  - No function is called from a signal handler, or in the child of a fork of a process with threads.
 *  - Every handle is freed at last, by sig_ticket_free.
 */
#ifndef SIGMUYAP_H
#define SIGMUYAP_H

#include <stdbool.h>
#include <stddef.h>
#include <stdint.h>
#include <string.h>

#ifdef __cplusplus
extern "C" {
#endif

/* The version of this interface. sig_version() is that of the linked library. */
#define SIG_VERSION 1

/* A handle: it holds a ticket, or none. */
typedef struct sig_ticket {
    void *at;
} sig_ticket;

/* Bytes that a call borrows. `at` is never null. */
typedef struct sig_text {
    const char *at;
    size_t len;
} sig_text;

#define SIG_TEXT(literal) { ("" literal), sizeof(literal) - 1 }

#ifdef __cplusplus
#define SIG_NO_TICKET sig_ticket{nullptr}
#define SIG_NO_TEXT sig_text{"", 0}
#else
#define SIG_NO_TICKET ((sig_ticket){ NULL })
#define SIG_NO_TEXT ((sig_text){ "", 0 })
#endif

/* The text of `len` bytes; a null pointer stands for the empty text. */
static inline sig_text sig_text_of(const char *text, size_t len)
{
    sig_text lent = { text ? text : "", text ? len : 0 };
    return lent;
}

/* The text of a string that ends with a zero byte; a null pointer stands for the empty text. */
static inline sig_text sig_text_of_string(const char *text)
{
    return sig_text_of(text, text ? strlen(text) : 0);
}

/* May an object of a namespace in a pool be read or written at a tick? Names are bytes. A tick is a number of the caller's clock. */
typedef struct sig_request {
    sig_text pool;
    sig_text name_space; /* empty: the default one */
    sig_text object;     /* empty: a listing */
    sig_text from;       /* the client's address as inet_pton reads it, or empty. Only grants with a network look at it. */
    uint64_t tick;
    bool reads;
    bool writes;
} sig_request;

/* A request with all texts empty, which reads and writes nothing. */
static inline sig_request sig_request_of(sig_text pool, sig_text name_space, sig_text object)
{
    sig_text none = { "", 0 };
    sig_request request = { pool, name_space, object, none, 0, false, false };
    return request;
}

/* A key and a value of an application tag. */
typedef struct sig_pair {
    sig_text key;
    sig_text value;
} sig_pair;

/* An application tag of a pool, with its pairs. */
typedef struct sig_application {
    sig_text name;
    const sig_pair *pairs; /* not null */
    size_t pairs_len;
} sig_application;

/* A call of a class's method, with what the class registry says of the method. */
typedef struct sig_call {
    sig_text class_;
    sig_text method;
    bool reads;
    bool writes;
    bool listed; /* flags alone may cover the class: it is on the default list */
} sig_call;

/* The rule that a text breaks, and where. Rules C1 to C7 are 1 to 7, and `at` is the offset of a byte in the text. Rules G1 and G5
 * are 17 and 21, and `at` is the number of a grant, counted from 1, or 0. By Ceph's rules it is E1, 33, and `at` is the offset of the
 * byte where reading stops, or a limit, E2 to E4, 34 to 36, and `at` is 0. */
typedef struct sig_fault {
    uint32_t rule;
    size_t at;
} sig_fault;

/* Answers. Each number has one meaning for each function. */
enum {
    SIG_OK = 0,         /* done */
    SIG_DENY = 0,       /* the ticket does not allow the request */
    SIG_NOT_WIDER = 0,  /* the new ticket allows nothing that the old one denies */
    SIG_ALLOW = 1,      /* the ticket allows the request */
    SIG_WIDER = 1,      /* the new ticket allows a request that the old one denies */
    SIG_EMPTY = 2,      /* the handle holds no ticket */
    SIG_NOT_UTF8 = 3,   /* a capability text, or a name of a tag or a class call, is not UTF-8 */
    SIG_NO_MEMORY = 4,  /* an allocation failed */
    SIG_REFUSED = 5,    /* the capability text has a fault */
    SIG_BAD_RULES = 6,  /* `rules` is not known */
    SIG_BAD_LENGTH = 7, /* there are not as many answers as requests */
    SIG_DEPENDS = 8,    /* the request has no address, and the ticket allows some addresses and denies others */
    SIG_BAD_ADDRESS = 9 /* a grant has a network, and the request's address is neither empty nor an address */
};

/* Rules by which a capability text is read. */
enum {
    SIG_RULES = 0,     /* this project's rules, docs/reference/CAPABILITY_TEXTS.md */
    SIG_RULES_CEPH = 1 /* those of Ceph 16.2.15, docs/guide/CEPH.md */
};

/* The version of the linked library. */
uint32_t sig_version(void);

/* Reads a capability text and puts its ticket into a handle. The ticket ends at tick `until` if `ends`, and else never. The handle's
 * old ticket is dropped.
 * SIG_OK; SIG_REFUSED, and `fault` is the text's first fault; SIG_NOT_UTF8; SIG_NO_MEMORY; SIG_BAD_RULES. Every answer but SIG_OK leaves
 * the handle as it was. Every answer but SIG_REFUSED leaves `fault` as it was. */
uint32_t sig_ticket_parse(sig_ticket *ticket, uint32_t rules, const char *text, size_t len, bool ends, uint64_t until, sig_fault *fault);

/* Decides a request without class calls, for a pool without application tags.
 * SIG_ALLOW, SIG_DENY or SIG_EMPTY; and SIG_DEPENDS or SIG_BAD_ADDRESS, if a grant of the ticket has a network. It allocates nothing. */
uint32_t sig_judge(sig_ticket *ticket, const sig_request *request);

/* Decides each request as sig_judge does, and writes the answer to each, in their order.
 * SIG_OK, SIG_EMPTY, or SIG_BAD_LENGTH if the two lengths differ. It allocates nothing. */
uint32_t sig_judge_all(sig_ticket *ticket, const sig_request *requests, size_t requests_len, uint8_t *answers, size_t answers_len);

/* Decides a request with class calls, for a pool with application tags.
 * An answer of sig_judge, SIG_NOT_UTF8 or SIG_NO_MEMORY. */
uint32_t sig_judge_with(sig_ticket *ticket, const sig_request *request, const sig_application *applications, size_t applications_len,
    const sig_call *calls, size_t calls_len);

/* Reports why a request is denied: a line `PATH CONDITION` for each grant. If the answer depends on the address it reports the lines
 * `allow --from ADDRESS` and `deny --from ADDRESS`.
 * SIG_DENY or SIG_DEPENDS: `needed` is the report's length, and `out` has as much of it as fits. It ends with no zero byte. Any other
 * answer is as of sig_judge_with, and writes nothing. */
uint32_t sig_report(sig_ticket *ticket, const sig_request *request, const sig_application *applications, size_t applications_len,
    const sig_call *calls, size_t calls_len, char *out, size_t out_len, size_t *needed);

/* Copies a ticket's text: by SIG_RULES the canonical one, with profiles as they were written; by SIG_RULES_CEPH the text that was read.
 * SIG_OK: `needed` is its length, and `out` has as much of it as fits. It ends with no zero byte. SIG_EMPTY: nothing is written. It
 * allocates nothing. */
uint32_t sig_ticket_text(sig_ticket *ticket, char *out, size_t out_len, size_t *needed);

/* The number of a ticket's grants, profiles expanded; 0 for an empty handle. A report has at most as many lines. */
size_t sig_ticket_grants(sig_ticket *ticket);

/* Compares two tickets over all requests, addresses and class registries. It does not look at when they end.
 * SIG_WIDER: the new ticket allows a request that the old one denies. `needed` is the length of one such request, and `out` has as
 * much of it as fits, in the words that `osdgate verdict` takes. SIG_NOT_WIDER, SIG_EMPTY (either handle) or SIG_NO_MEMORY: nothing is
 * written. */
uint32_t sig_widening(sig_ticket *old, sig_ticket *new_, char *out, size_t out_len, size_t *needed);

/* Lets `to` hold the ticket of `from`. It copies no grant; the old ticket of `to` is dropped. If `from` is empty, `to` becomes empty.
 * SIG_OK, or SIG_NO_MEMORY, which leaves both as they were. */
uint32_t sig_ticket_share(sig_ticket *from, sig_ticket *to);

/* Empties a handle. An empty handle stays empty. */
void sig_ticket_free(sig_ticket *ticket);

/* Writes the name of a fault's rule, as `C7 NetworkClause`, as much of it as fits. Returns its length, 0 for a number that no fault has.
 * It ends with no zero byte, and is never longer than 32. */
size_t sig_fault_name(uint32_t rule, char *out, size_t out_len);

/* Reads a string that ends with a zero byte, by this project's rules, without an end. */
static inline uint32_t sig_parse(sig_ticket *ticket, const char *text, sig_fault *fault)
{
    return sig_ticket_parse(ticket, SIG_RULES, text ? text : "", text ? strlen(text) : 0, false, 0, fault);
}

/* The same by Ceph's rules. */
static inline uint32_t sig_parse_ceph(sig_ticket *ticket, const char *text, sig_fault *fault)
{
    return sig_ticket_parse(ticket, SIG_RULES_CEPH, text ? text : "", text ? strlen(text) : 0, false, 0, fault);
}

/* Whether a ticket allows a request, as sig_judge decides. An error allows nothing. */
static inline bool sig_allows(sig_ticket *ticket, const sig_request *request)
{
    return sig_judge(ticket, request) == SIG_ALLOW;
}

#ifdef __cplusplus
}
#endif

#endif

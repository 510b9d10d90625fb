// A library that the loader puts before a quick build: one allocation of the program is refused, or all below a function.
//
// REFUSED_PROGRAM is the program's file, and any other program that loads the library runs as it would. REFUSED_NUMBER
// counts the allocations from 1; REFUSED_MARK is a file that is made when this one is asked for. REFUSED_ALLOC and
// REFUSED_REALLOC say where in the program the toolchain's two functions for memory stand, in hexadecimal digits.
//
// REFUSED_FIRST and REFUSED_END say, instead of a number, where a function stands and where it ends: all that is asked for while
// it runs is refused. REFUSED_SEEN is a file that gets the places in the program from which functions were called that asked for
// memory, as numbers of eight bytes, between zeros.
#define _GNU_SOURCE
#include <fcntl.h>
#include <limits.h>
#include <link.h>
#include <stdint.h>
#include <stdlib.h>
#include <string.h>
#include <sys/mman.h>
#include <unistd.h>

// What the toolchain's functions answer, in two registers: whether there was memory, and where.
struct answer {
    uint64_t is_there;
    void *place;
};

static uint64_t asked_for, refused_number;
static const char *mark;
static uintptr_t base, refused_first, refused_end;

// Places that were seen, by their last bits; where the table is full a place is left out.
#define PLACES 65536
static uintptr_t *seen;

static void see(uintptr_t place) {
    for (uintptr_t at = place; at < place + 64; at++) {
        uintptr_t none = 0, *slot = &seen[at % PLACES];
        if (*slot == place || __atomic_compare_exchange_n(slot, &none, place, 0, __ATOMIC_SEQ_CST, __ATOMIC_SEQ_CST)) return;
        if (*slot == place) return;
    }
}

// Looks at each place that the functions that run now go back to: whether one of them is the refused function. The program keeps
// a frame for each function, and a frame lies above those that it called.
static int is_within(void **frame) {
    int is_found = 0;
    for (int depth = 0; depth < 4096; depth++) {
        uintptr_t place = (uintptr_t)frame[1] - base;
        if (seen) see(place);
        if (refused_first <= place && place < refused_end) is_found = 1;
        void **next = frame[0];
        if (next <= frame || (uintptr_t)next - (uintptr_t)frame > 16 << 20 || (uintptr_t)next % 8) break;
        frame = next;
    }
    return is_found;
}

// The table is the file itself, since a program may end without a last word.
static uintptr_t *table_in(const char *name) {
    int file = open(name, O_CREAT | O_RDWR | O_TRUNC, 0600);
    if (file < 0 || ftruncate(file, PLACES * sizeof *seen)) abort();
    void *table = mmap(NULL, PLACES * sizeof *seen, PROT_READ | PROT_WRITE, MAP_SHARED, file, 0);
    if (table == MAP_FAILED) abort();
    return table;
}

static int is_refused(void) {
    if (refused_end || seen) return is_within(__builtin_frame_address(0));
    uint64_t number = __atomic_add_fetch(&asked_for, 1, __ATOMIC_SEQ_CST);
    if (number != refused_number) return 0;
    int file = open(mark, O_CREAT | O_WRONLY, 0600);
    if (file >= 0) close(file);
    return 1;
}

static struct answer answer_of(void *place) {
    struct answer answer = {place != NULL, place};
    return answer;
}

static struct answer allocate(size_t size, size_t align) {
    return answer_of(is_refused() ? NULL : malloc(size ? size : align));
}

static struct answer grow(void *old, size_t old_size, size_t size, size_t align) {
    (void)old_size;
    return answer_of(is_refused() ? NULL : realloc(old, size ? size : align));
}

// Writes a jump to `to` over the function that stands at `at`: mov r11, to; jmp r11.
static int jump(uintptr_t at, void *to) {
    unsigned char code[13] = {0x49, 0xbb, 0, 0, 0, 0, 0, 0, 0, 0, 0x41, 0xff, 0xe3};
    uintptr_t page = (uintptr_t)sysconf(_SC_PAGESIZE), first = at & ~(page - 1);
    memcpy(code + 2, &to, sizeof to);
    if (mprotect((void *)first, 2 * page, PROT_READ | PROT_WRITE | PROT_EXEC)) return 0;
    memcpy((void *)at, code, sizeof code);
    return !mprotect((void *)first, 2 * page, PROT_READ | PROT_EXEC);
}

static int base_of(struct dl_phdr_info *info, size_t size, void *place) {
    (void)size;
    *(uintptr_t *)place = info->dlpi_addr;
    return 1; // the program is the first of all
}

static int is_the_program(void) {
    char file[PATH_MAX];
    const char *program = getenv("REFUSED_PROGRAM");
    ssize_t length = readlink("/proc/self/exe", file, sizeof file - 1);
    if (!program || length < 0) return 0;
    file[length] = 0;
    return !strcmp(file, program);
}

static uintptr_t number_in(const char *name, int base) {
    const char *text = getenv(name);
    return text ? strtoull(text, NULL, base) : 0;
}

__attribute__((constructor)) static void begin(void) {
    uintptr_t alloc = number_in("REFUSED_ALLOC", 16), realloc = number_in("REFUSED_REALLOC", 16);
    if (!is_the_program()) return;
    refused_number = number_in("REFUSED_NUMBER", 10);
    refused_first = number_in("REFUSED_FIRST", 16);
    refused_end = number_in("REFUSED_END", 16);
    mark = getenv("REFUSED_MARK");
    const char *seen_file = getenv("REFUSED_SEEN");
    if (seen_file) seen = table_in(seen_file);
    dl_iterate_phdr(base_of, &base);
    if (!mark || !alloc || !realloc || !jump(base + alloc, allocate) || !jump(base + realloc, grow)) abort();
}

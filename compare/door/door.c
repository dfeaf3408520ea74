/* The library in a process of its own: it asks what it is told to, and writes what was answered.
 *
 *     door FILE
 *
 * FILE has five parts of the same length: frames, domains, stock, entries and the gauge. Whoever asks writes the lent
 * words there and reads them back. Here the parts are mapped apart, with memory around each that nobody may touch: an
 * array that ends where its part ends, or begins where its part begins, can't be left on that side. The program dies.
 *
 * Messages come on standard input, and for each an answer goes to standard output, as the bytes of their structs. First
 * of all the bytes of a message are told, in a word: FILE is then mapped, and whoever asks sees whether the sides fit.
 *
 * It has no C library: the system calls are those of Linux on x86-64. On another processor the kit's emulator runs it.
 */
#include "reefnettle.h"

enum { FRAMES, DOMAINS, STOCK, ENTRIES, GAUGE, PARTS };

/* Whole pages on each processor: a page has at most bytes 65536. */
enum { PART_BYTES = 32 * 65536, GUARD_BYTES = 65536 };

typedef struct {
    uint64_t at; /* bytes from the beginning of its part */
    uint64_t words;
} array;

typedef struct {
    reefnettle_hpa base;
    array arrays[GAUGE];
    uint64_t gauge_at;
    reefnettle_request request;
} message;

_Static_assert(sizeof(reefnettle_request) == 64, "bytes of a request");
_Static_assert(sizeof(reefnettle_answer) == 48, "bytes of an answer");
_Static_assert(sizeof(reefnettle_gauge) == 32, "bytes of a gauge");
_Static_assert(sizeof(message) == 144, "bytes of a message");

enum { STATUS_END_OF_INPUT = 0, STATUS_USAGE = 2, STATUS_NO_FILE = 3, STATUS_BROKEN_PIPE = 4 };

enum { CALL_READ = 0, CALL_WRITE = 1, CALL_OPEN = 2, CALL_MMAP = 9, CALL_EXIT_GROUP = 231 };
enum { STANDARD_INPUT = 0, STANDARD_OUTPUT = 1, STANDARD_ERROR = 2 };
enum { OPEN_READ_WRITE = 2 };
enum { PROTECT_NONE = 0, PROTECT_READ_WRITE = 3 };
enum { MAP_SHARED_FIXED = 0x11, MAP_PRIVATE_ANONYMOUS_NO_RESERVE = 0x4022 };

static int64_t system_call(uint64_t number, uint64_t a, uint64_t b, uint64_t c, uint64_t d, uint64_t e, uint64_t f)
{
    register uint64_t r10 __asm__("r10") = d;
    register uint64_t r8 __asm__("r8") = e;
    register uint64_t r9 __asm__("r9") = f;
    int64_t result;
    __asm__ volatile("syscall"
                     : "=a"(result)
                     : "a"(number), "D"(a), "S"(b), "d"(c), "r"(r10), "r"(r8), "r"(r9)
                     : "rcx", "r11", "memory");
    return result;
}

static _Noreturn void leave(uint64_t status)
{
    for (;;) system_call(CALL_EXIT_GROUP, status, 0, 0, 0, 0, 0);
}

static _Noreturn void refuse(uint64_t status, const char *why)
{
    size_t bytes = 0;
    while (why[bytes] != 0) bytes++;
    system_call(CALL_WRITE, STANDARD_ERROR, (uintptr_t)why, bytes, 0, 0, 0);
    leave(status);
}

/* The compiler and the library call these two. In assembly, so that no compiler turns them into calls of themselves. */
void *memset(void *to, int byte, size_t bytes)
{
    void *at = to;
    __asm__ volatile("rep stosb" : "+D"(at), "+c"(bytes) : "a"(byte) : "memory");
    return to;
}

void *memcpy(void *to, const void *from, size_t bytes)
{
    void *at = to;
    __asm__ volatile("rep movsb" : "+D"(at), "+S"(from), "+c"(bytes) : : "memory");
    return to;
}

static void write_all(const void *from, size_t bytes)
{
    for (size_t done = 0; done < bytes;) {
        int64_t n = system_call(CALL_WRITE, STANDARD_OUTPUT, (uintptr_t)from + done, bytes - done, 0, 0, 0);
        if (n <= 0) leave(STATUS_BROKEN_PIPE);
        done += (size_t)n;
    }
}

/* False at the end of the input; an end within a message is no such end. */
static bool read_message(message *to)
{
    for (size_t done = 0; done < sizeof *to;) {
        int64_t n = system_call(CALL_READ, STANDARD_INPUT, (uintptr_t)to + done, sizeof *to - done, 0, 0, 0);
        if (n == 0 && done == 0) return false;
        if (n <= 0) leave(STATUS_BROKEN_PIPE);
        done += (size_t)n;
    }
    return true;
}

/* Maps each part of the file with a guard before and behind it. */
static void map_parts(const char *path, uintptr_t parts[PARTS])
{
    int64_t file = system_call(CALL_OPEN, (uintptr_t)path, OPEN_READ_WRITE, 0, 0, 0, 0);
    uint64_t all_bytes = PARTS * (uint64_t)(GUARD_BYTES + PART_BYTES) + GUARD_BYTES;
    int64_t guard = system_call(CALL_MMAP, 0, all_bytes, PROTECT_NONE, MAP_PRIVATE_ANONYMOUS_NO_RESERVE, UINT64_MAX, 0);
    if (file < 0 || guard < 0) refuse(STATUS_NO_FILE, "door: no such file, or no room for its guards\n");
    for (uint64_t part = 0; part < PARTS; part++) {
        uint64_t place = (uint64_t)guard + part * (GUARD_BYTES + PART_BYTES) + GUARD_BYTES;
        int64_t mapped = system_call(CALL_MMAP, place, PART_BYTES, PROTECT_READ_WRITE, MAP_SHARED_FIXED, (uint64_t)file,
                                     part * PART_BYTES);
        if (mapped < 0) refuse(STATUS_NO_FILE, "door: the file can't be mapped\n");
        parts[part] = (uintptr_t)mapped;
    }
}

static reefnettle_answer ask(const uintptr_t parts[PARTS], const message *m)
{
    const array *arrays = m->arrays;
    return reefnettle_ask(m->base,
                          (uint64_t *)(parts[FRAMES] + arrays[FRAMES].at), arrays[FRAMES].words,
                          (uint64_t *)(parts[DOMAINS] + arrays[DOMAINS].at), arrays[DOMAINS].words,
                          (uint64_t *)(parts[STOCK] + arrays[STOCK].at), arrays[STOCK].words,
                          (uint32_t *)(parts[ENTRIES] + arrays[ENTRIES].at), arrays[ENTRIES].words,
                          (reefnettle_gauge *)(parts[GAUGE] + m->gauge_at), m->request);
}

/* On the stack that a program begins with lie the number of its words, and the words: its name, then its arguments. */
__attribute__((used)) static _Noreturn void serve(const uintptr_t *stack)
{
    uintptr_t parts[PARTS];
    uint64_t message_bytes = sizeof(message);
    message m;
    if (stack[0] != 2) refuse(STATUS_USAGE, "usage: door FILE\n");
    map_parts((const char *)stack[2], parts);
    write_all(&message_bytes, sizeof message_bytes);
    while (read_message(&m)) {
        reefnettle_answer answer = ask(parts, &m);
        write_all(&answer, sizeof answer);
    }
    leave(STATUS_END_OF_INPUT);
}

__asm__(".globl _start\n"
        "_start:\n"
        "    xor %ebp, %ebp\n"
        "    mov %rsp, %rdi\n"
        "    and $-16, %rsp\n"
        "    call serve\n");

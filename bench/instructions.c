// Calls each C function on fixed inputs under callgrind, which writes its counts to a file of their own after each call: bench/instructions reads them.
#include <valgrind/callgrind.h>

static void counted(const char *function);

#define CALL(function, ...) (word = function(__VA_ARGS__), counted(#function))
#define CHANGE(memory, bytes, ...) CALL(__VA_ARGS__)

#include "calls.h"

// memset and memcpy for the library, by words and then by bytes: what is counted then depends neither on the C library and the processor nor on the C compiler.
__asm__(".globl memset, memcpy\n"
        ".type memset, @function\n"
        ".type memcpy, @function\n"
        "memset: mov %rdi, %r8\n"
        "movzbl %sil, %eax\n"
        "movabs $0x0101010101010101, %rcx\n"
        "imul %rcx, %rax\n"
        "mov %rdx, %rcx\n"
        "shr $3, %rcx\n"
        "rep stosq\n"
        "mov %edx, %ecx\n"
        "and $7, %ecx\n"
        "rep stosb\n"
        "mov %r8, %rax\n"
        "ret\n"
        ".size memset, . - memset\n"
        "memcpy: mov %rdi, %rax\n"
        "mov %rdx, %rcx\n"
        "shr $3, %rcx\n"
        "rep movsq\n"
        "mov %edx, %ecx\n"
        "and $7, %ecx\n"
        "rep movsb\n"
        "ret\n"
        ".size memcpy, . - memcpy\n");

// A call's counts, under its function's name and the input's.
static void counted(const char *function) {
    char title[64];
    snprintf(title, sizeof title, "%s %s", function, input);
    CALLGRIND_DUMP_STATS_AT(title);
}

int main(void) {
    all_calls();
    return 0;
}

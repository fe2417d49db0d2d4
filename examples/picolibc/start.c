/* What stands below main in a guest that is linked with picolibc: the start, the end, standard input and output, and the
   heap. Each talks to the system by one call: 63 read, 64 write, 93 exit, 214 brk. */
#include <stdint.h>
#include <stdio.h>
#include <stdlib.h>
#include <unistd.h>

int main(void);

static long call(long number, long a, long b, long c)
{
    register long x10 __asm__("x10") = a;
    register long x11 __asm__("x11") = b;
    register long x12 __asm__("x12") = c;
    register long x17 __asm__("x17") = number;
    __asm__ volatile("ecall" : "+r"(x10) : "r"(x11), "r"(x12), "r"(x17) : "memory");
    return x10;
}

enum { READ = 63, WRITE = 64, EXIT = 93, BRK = 214 };

/* The first instruction. The stack pointer is set when a guest starts; gp and tp are not. tp leads to the variables that
   picolibc has for each thread, of which there is one here: guest.ld puts them among the data. */
__asm__(".section .text.start, \"ax\"\n"
        ".globl _start\n"
        "_start:\n"
        ".option push\n"
        ".option norelax\n"
        "    la gp, __global_pointer$\n"
        ".option pop\n"
        "    la tp, __tls_base\n"
        "    call run_main\n");

/* Functions marked as constructors run before main; guest.ld lists them. */
extern void (*const __init_array_start[])(void), (*const __init_array_end[])(void);

__attribute__((used, noreturn)) static void run_main(void)
{
    for (void (*const *f)(void) = __init_array_start; f != __init_array_end; f++)
        (*f)();
    exit(main());
}

/* Output is kept until the buffer is full, and written at the end at the latest. */
static char out[1024];
static long held;

static int flush(FILE *file)
{
    (void)file;
    for (long at = 0; at < held;) {
        long n = call(WRITE, 1, (long)(out + at), held - at);
        if (n <= 0)
            break;
        at += n;
    }
    held = 0;
    return 0;
}

static int put(char c, FILE *file)
{
    out[held++] = c;
    if (held == (long)sizeof out)
        flush(file);
    return (unsigned char)c;
}

/* Input is what the manifest names as the guest's input. */
static int get(FILE *file)
{
    static unsigned char in[1024];
    static long left, at;
    (void)file;
    if (left == 0) {
        left = call(READ, 0, (long)in, sizeof in);
        at = 0;
    }
    if (left <= 0) {
        left = 0;
        return _FDEV_EOF;
    }
    left--;
    return in[at++];
}

static FILE console = FDEV_SETUP_STREAM(put, get, flush, _FDEV_SETUP_RW);

FILE *const stdin = &console;
FILE *const stdout = &console;
FILE *const stderr = &console;

void _exit(int status)
{
    flush(&console);
    call(EXIT, status, 0, 0);
    for (;;) {
    }
}

/* The heap, for malloc: brk(0) tells its end, and brk(end) sets it, or answers the end as it is where it can't. */
void *sbrk(ptrdiff_t more)
{
    long end = call(BRK, 0, 0, 0);
    if (more && call(BRK, end + more, 0, 0) != end + more)
        return (void *)-1;
    return (void *)end;
}

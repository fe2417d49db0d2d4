/* Works out the sums of its input, one to a line, and writes their values. rv32i has no multiplication, so the compiler
   calls __mulsi3 of libgcc for each. It exits with the number of lines. */
typedef unsigned int word;

static word call(word number, word a, word b, word c)
{
    register word x10 __asm__("x10") = a;
    register word x11 __asm__("x11") = b;
    register word x12 __asm__("x12") = c;
    register word x17 __asm__("x17") = number;
    __asm__ volatile("ecall" : "+r"(x10) : "r"(x11), "r"(x12), "r"(x17) : "memory");
    return x10;
}

enum { READ = 63, WRITE = 64, EXIT = 93 };

#define APART __attribute__((noinline))

static char in[1024];
static const char *at;

static int sum(void);

APART static int number(void)
{
    int n = 0;
    while (*at >= '0' && *at <= '9')
        n = n * 10 + (*at++ - '0');
    return n;
}

APART static int factor(void)
{
    int n;
    if (*at == '-') {
        at++;
        return -factor();
    }
    if (*at != '(')
        return number();
    at++;
    n = sum();
    if (*at == ')')
        at++;
    return n;
}

APART static int product(void)
{
    int n = factor();
    while (*at == '*') {
        at++;
        n *= factor();
    }
    return n;
}

APART static int sum(void)
{
    int n = product();
    while (*at == '+' || *at == '-') {
        char sign = *at++;
        int m = product();
        n = sign == '+' ? n + m : n - m;
    }
    return n;
}

APART static void put_line(int n)
{
    char line[12];
    word end = sizeof line, start = end, rest = n < 0 ? -(word)n : (word)n;
    line[--start] = '\n';
    do {
        word tens = 0, digit = rest;
        while (digit >= 10) {
            digit -= 10;
            tens++;
        }
        line[--start] = (char)('0' + digit);
        rest = tens;
    } while (rest);
    if (n < 0)
        line[--start] = '-';
    call(WRITE, 1, (word)(line + start), end - start);
}

void _start(void)
{
    word lines = 0;
    in[call(READ, 0, (word)in, sizeof in - 1)] = 0;
    for (at = in; *at; lines++) {
        put_line(sum());
        while (*at && *at++ != '\n') {
        }
    }
    call(EXIT, lines, 0, 0);
    for (;;) {
    }
}

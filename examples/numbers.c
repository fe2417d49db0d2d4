/* Reads whole numbers from its input, sorts them, and writes the least, the middle and the greatest one, their mean and
   their spread. It multiplies and divides, so it is compiled for rv32im. It exits with the number of numbers. */
typedef unsigned int word;

static word call(word number, word a, word b, word c)
{
    register word x10 __asm__("x10") = a;
    register word x11 __asm__("x11") = b;
    register word x12 __asm__("x12") = c;
    register word x17 __asm__("x17") = number;
    __asm__ volatile("ecall" : "+r"(x10) : "r"(x11), "r"(x12), "r"(x17) : "memory");
    return x10;
}

enum { READ = 63, WRITE = 64, EXIT = 93 };

static char in[1024];
static word numbers[256];
static char out[128];
static word length;

static void put_text(const char *text)
{
    while (*text)
        out[length++] = *text++;
}

static void put_number(word n)
{
    if (n >= 10)
        put_number(n / 10);
    out[length++] = (char)('0' + n % 10);
}

static void put_line(const char *name, word n)
{
    put_text(name);
    put_number(n);
    out[length++] = '\n';
}

static word read_numbers(void)
{
    word size = call(READ, 0, (word)in, sizeof in);
    word count = 0, n = 0, digits = 0;
    for (word i = 0; i <= size && count < 256; i++) {
        char c = i < size ? in[i] : '\n';
        if (c >= '0' && c <= '9') {
            n = n * 10 + (word)(c - '0');
            digits++;
        } else if (digits) {
            numbers[count++] = n;
            n = digits = 0;
        }
    }
    return count;
}

static void sort(word count)
{
    for (word i = 1; i < count; i++) {
        word n = numbers[i], j = i;
        for (; j && numbers[j - 1] > n; j--)
            numbers[j] = numbers[j - 1];
        numbers[j] = n;
    }
}

/* The greatest number whose square is at most n. */
static word root(word n)
{
    word r = 0;
    for (word bit = 1u << 15; bit; bit >>= 1)
        if ((r + bit) * (r + bit) <= n)
            r += bit;
    return r;
}

void _start(void)
{
    word count = read_numbers();
    if (count == 0)
        call(EXIT, 0, 0, 0);
    sort(count);
    word sum = 0, squares = 0;
    for (word i = 0; i < count; i++)
        sum += numbers[i];
    word mean = sum / count;
    for (word i = 0; i < count; i++)
        squares += (numbers[i] - mean) * (numbers[i] - mean);
    put_line("least ", numbers[0]);
    put_line("middle ", numbers[count / 2]);
    put_line("greatest ", numbers[count - 1]);
    put_line("mean ", mean);
    put_line("spread ", root(squares / count));
    call(WRITE, 1, (word)out, length);
    call(EXIT, count, 0, 0);
    for (;;) {
    }
}

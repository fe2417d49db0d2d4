/* A guest that computes for some ten million instructions: it sorts numbers, sifts primes, multiplies matrices, hashes
   bytes and calls a function that calls itself. It writes one number that depends on all of it. In this folder:

    riscv64-unknown-elf-gcc -march=rv32im -mabi=ilp32 -O1 -fno-optimize-sibling-calls -ffreestanding -nostdlib \
        -T ../examples/two-segments.ld -Wl,-n -o mix.elf mix.c */
typedef unsigned int word;
typedef unsigned char byte;

static word call(word number, word a, word b, word c)
{
    register word x10 __asm__("x10") = a;
    register word x11 __asm__("x11") = b;
    register word x12 __asm__("x12") = c;
    register word x17 __asm__("x17") = number;
    __asm__ volatile("ecall" : "+r"(x10) : "r"(x11), "r"(x12), "r"(x17) : "memory");
    return x10;
}

enum { WRITE = 64, EXIT = 93, NUMBERS = 2048, SIEVE = 16384, SIDE = 24, ROUNDS = 8 };

#define APART __attribute__((noinline))

static word numbers[NUMBERS];
static byte sieve[SIEVE];
static word left[SIDE][SIDE], right[SIDE][SIDE], product[SIDE][SIDE];

APART static word next(word *state)
{
    word x = *state;
    x ^= x << 13;
    x ^= x >> 17;
    x ^= x << 5;
    return *state = x;
}

APART static word sorted(word *state)
{
    for (word i = 0; i < NUMBERS; i++)
        numbers[i] = next(state);
    for (word gap = NUMBERS / 2; gap; gap /= 2)
        for (word i = gap; i < NUMBERS; i++) {
            word n = numbers[i], j = i;
            for (; j >= gap && numbers[j - gap] > n; j -= gap)
                numbers[j] = numbers[j - gap];
            numbers[j] = n;
        }
    return numbers[NUMBERS / 2];
}

APART static word primes(void)
{
    word count = 0;
    for (word i = 0; i < SIEVE; i++)
        sieve[i] = 1;
    for (word i = 2; i < SIEVE; i++) {
        if (!sieve[i])
            continue;
        count++;
        for (word j = i + i; j < SIEVE; j += i)
            sieve[j] = 0;
    }
    return count;
}

APART static word matrices(word *state)
{
    word sum = 0;
    for (word i = 0; i < SIDE; i++)
        for (word j = 0; j < SIDE; j++) {
            left[i][j] = next(state) % 1000;
            right[i][j] = next(state) / 1000;
        }
    for (word i = 0; i < SIDE; i++)
        for (word j = 0; j < SIDE; j++) {
            word cell = 0;
            for (word k = 0; k < SIDE; k++)
                cell += left[i][k] * right[k][j];
            product[i][j] = cell;
            sum ^= cell;
        }
    return sum;
}

APART static word hash(const byte *bytes, word length)
{
    word h = 2166136261u;
    for (word i = 0; i < length; i++)
        h = (h ^ bytes[i]) * 16777619u;
    return h;
}

APART static word fibonacci(word n)
{
    return n < 2 ? n : fibonacci(n - 1) + fibonacci(n - 2);
}

void _start(void)
{
    static char line[9];
    word state = 1, sum = 0;
    for (word round = 0; round < ROUNDS; round++) {
        sum = sum * 31 + sorted(&state);
        sum = sum * 31 + primes();
        sum = sum * 31 + matrices(&state);
        sum = sum * 31 + hash((const byte *)numbers, sizeof numbers);
        sum = sum * 31 + fibonacci(16);
    }
    for (word i = 0; i < 8; i++)
        line[i] = "0123456789abcdef"[sum >> (28 - 4 * i) & 15];
    line[8] = '\n';
    call(WRITE, 1, (word)line, sizeof line);
    call(EXIT, 0, 0, 0);
    for (;;) {
    }
}

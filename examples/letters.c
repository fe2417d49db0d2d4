/* Counts the letters of a text, writes a line for each, and exits with the number of different ones.
   It asks the system for a heap, and has a table that is written, so it has a segment for code and one for data. */
typedef unsigned int word;

static word call(word number, word a, word b, word c)
{
    register word x10 __asm__("x10") = a;
    register word x11 __asm__("x11") = b;
    register word x12 __asm__("x12") = c;
    register word x17 __asm__("x17") = number;
    __asm__ volatile("ecall" : "+r"(x10) : "r"(x11), "r"(x12), "r"(x17) : "memory");
    return x10;
}

enum { WRITE = 64, EXIT = 93, BRK = 214 };

static const char text[20000] =
    "A host runs a guest in blocks. Each block is built from the bytes that the guest has in memory, and is run as the "
    "plain machine would run them. Whatever a guest writes and wherever it jumps, what it prints is what the plain "
    "machine prints.";

/* Initialised, so that its bytes are in the file. */
static word marks[5000] = {1, 2, 3};

static word divide(word n, word by)
{
    word q = 0;
    while (n >= by) {
        n -= by;
        q++;
    }
    return q;
}

static char *put_number(char *out, word n)
{
    word tens = divide(n, 10);
    if (tens)
        out = put_number(out, tens);
    *out++ = (char)('0' + (n - (tens << 3) - (tens << 1)));
    return out;
}

static word count_letters(word *counts)
{
    word different = 0;
    for (const char *c = text; *c; c++) {
        word letter = (word)(*c | 32) - 'a';
        if (letter < 26 && counts[letter]++ == 0)
            different++;
    }
    return different;
}

void _start(void)
{
    word start = call(BRK, 0, 0, 0);
    word *counts = (word *)start;
    if (call(BRK, start + 4096, 0, 0) != start + 4096)
        call(EXIT, 255, 0, 0);
    word different = count_letters(counts);
    char *line = (char *)(counts + 26);
    char *out = line;
    for (word i = 0; i < 26; i++) {
        if (!counts[i])
            continue;
        *out++ = (char)('a' + i);
        *out++ = ' ';
        out = put_number(out, counts[i]);
        *out++ = '\n';
        marks[i] = counts[i];
    }
    call(WRITE, 1, (word)line, (word)(out - line));
    call(EXIT, different + marks[4999], 0, 0);
    for (;;) {
    }
}

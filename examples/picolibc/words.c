/* Counts the words of its input, and prints them, the most frequent first: ordinary C with printf and malloc. */
#include <ctype.h>
#include <stdio.h>
#include <stdlib.h>
#include <string.h>

struct word {
    struct word *next;
    unsigned count;
    char text[];
};

static struct word *buckets[32];
static unsigned different, all;

static unsigned hash(const char *text)
{
    unsigned h = 2166136261u;
    for (; *text; text++)
        h = (h ^ (unsigned char)*text) * 16777619u;
    return h;
}

static void count(const char *text)
{
    struct word **at = &buckets[hash(text) % 32];
    all++;
    for (struct word *w = *at; w; w = w->next)
        if (strcmp(w->text, text) == 0) {
            w->count++;
            return;
        }
    struct word *w = malloc(sizeof *w + strlen(text) + 1);
    if (!w) {
        printf("no memory\n");
        exit(1);
    }
    strcpy(w->text, text);
    w->count = 1;
    w->next = *at;
    *at = w;
    different++;
}

static int by_count(const void *a, const void *b)
{
    const struct word *v = *(struct word *const *)a, *w = *(struct word *const *)b;
    if (v->count != w->count)
        return v->count < w->count ? 1 : -1;
    return strcmp(v->text, w->text);
}

int main(void)
{
    char text[32];
    size_t length = 0;
    int c;
    do {
        c = getchar();
        if (c != EOF && isalpha(c)) {
            if (length < sizeof text - 1)
                text[length++] = (char)tolower(c);
        } else if (length) {
            text[length] = 0;
            count(text);
            length = 0;
        }
    } while (c != EOF);

    struct word **list = malloc(different * sizeof *list);
    size_t n = 0;
    for (size_t i = 0; list && i < 32; i++)
        for (struct word *w = buckets[i]; w; w = w->next)
            list[n++] = w;
    qsort(list, n, sizeof *list, by_count);

    printf("%u words, %u different\n", all, different);
    for (size_t i = 0; i < n && list[i]->count > 1; i++)
        printf("%3u %4.1f%% %s\n", list[i]->count, 100.0 * list[i]->count / all, list[i]->text);
    return 0;
}

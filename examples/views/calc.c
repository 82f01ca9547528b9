/* A calculator whose path is looked at: a parser, a machine with a switch, sorting by a pointer to a function, recursion, a hash table.
   Each word is one thing to do; without a word it does those of `usual`. */
#include <stdio.h>
#include <stdlib.h>
#include <string.h>

/* ---- a machine with a stack ---------------------------------------------------- */

enum operation { PUSH, LOAD, STORE, ADD, SUBTRACT, MULTIPLY, DIVIDE, NEGATE, STOP };

struct step {
    enum operation operation;
    long value;
};

static long variables[26];
static struct step program[200];
static int length;

static void emit(enum operation operation, long value)
{
    if (length == 200) {
        fprintf(stderr, "the expression is too long\n");
        exit(1);
    }
    program[length].operation = operation;
    program[length].value = value;
    length++;
}

static long run(void)
{
    long stack[64], *top = stack;
    for (const struct step *step = program;; step++) {
        switch (step->operation) {
        case PUSH:
            *top++ = step->value;
            break;
        case LOAD:
            *top++ = variables[step->value];
            break;
        case STORE:
            variables[step->value] = top[-1];
            break;
        case ADD:
            top--;
            top[-1] += top[0];
            break;
        case SUBTRACT:
            top--;
            top[-1] -= top[0];
            break;
        case MULTIPLY:
            top--;
            top[-1] *= top[0];
            break;
        case DIVIDE:
            top--;
            if (top[0] == 0)
                return -1;
            top[-1] /= top[0];
            break;
        case NEGATE:
            top[-1] = -top[-1];
            break;
        case STOP:
            return top[-1];
        }
    }
}

/* ---- a parser -------------------------------------------------------------------- */

static const char *at;

static void parse_sum(void);

static void parse_value(void)
{
    long value = 0;
    if (*at == '(') {
        at++;
        parse_sum();
        at++;
    } else if (*at == '-') {
        at++;
        parse_value();
        emit(NEGATE, 0);
    } else if (*at >= 'a' && *at <= 'z') {
        emit(LOAD, *at++ - 'a');
    } else {
        while (*at >= '0' && *at <= '9')
            value = 10 * value + *at++ - '0';
        emit(PUSH, value);
    }
}

static void parse_product(void)
{
    parse_value();
    while (*at == '*' || *at == '/') {
        enum operation operation = *at++ == '*' ? MULTIPLY : DIVIDE;
        parse_value();
        emit(operation, 0);
    }
}

static void parse_sum(void)
{
    parse_product();
    while (*at == '+' || *at == '-') {
        enum operation operation = *at++ == '+' ? ADD : SUBTRACT;
        parse_product();
        emit(operation, 0);
    }
}

static long calculate(const char *text)
{
    at = text[0] && text[1] == '=' ? text + 2 : text;
    length = 0;
    parse_sum();
    if (text[0] && text[1] == '=')
        emit(STORE, text[0] - 'a');
    emit(STOP, 0);
    return run();
}

/* ---- sorting ----------------------------------------------------------------------- */

static int up(long one, long other)
{
    return one < other;
}

static int down(long one, long other)
{
    return one > other;
}

static int by_low_digit(long one, long other)
{
    if (one % 10 != other % 10)
        return one % 10 < other % 10;
    return one < other;
}

static void quick(long *first, long *last, int (*before)(long, long))
{
    while (last - first > 1) {
        long middle = first[(last - first) / 2], *low = first, *high = last - 1;
        while (low <= high) {
            while (before(*low, middle))
                low++;
            while (before(middle, *high))
                high--;
            if (low <= high) {
                long kept = *low;
                *low++ = *high;
                *high-- = kept;
            }
        }
        quick(first, high + 1, before);
        first = low;
    }
}

static int is_sorted(const long *numbers, int count, int (*before)(long, long))
{
    for (int place = 1; place < count; place++)
        if (before(numbers[place], numbers[place - 1]))
            return 0;
    return 1;
}

/* ---- recursion ------------------------------------------------------------------- */

static long fib(int n)
{
    return n < 2 ? n : fib(n - 1) + fib(n - 2);
}

static long common(long one, long other)
{
    if (other == 0)
        return one;
    return common(other, one % other);
}

/* ---- a hash table ------------------------------------------------------------------ */

struct entry {
    struct entry *next;
    char name[12];
    int count;
};

static struct entry entries[100], *buckets[32];
static int used;

static unsigned hash(const char *name)
{
    unsigned value = 5381;
    for (; *name; name++)
        value = 33 * value + (unsigned char)*name;
    return value % 32;
}

static int count_name(const char *name)
{
    struct entry **bucket = &buckets[hash(name)];
    for (struct entry *entry = *bucket; entry; entry = entry->next)
        if (strcmp(entry->name, name) == 0)
            return ++entry->count;
    if (used == 100) {
        fprintf(stderr, "the table is full\n");
        exit(1);
    }
    struct entry *entry = &entries[used++];
    strncpy(entry->name, name, sizeof entry->name - 1);
    entry->next = *bucket;
    *bucket = entry;
    return entry->count = 1;
}

static int count_names(int turns)
{
    char name[12];
    int most = 0;
    for (int turn = 0; turn < turns; turn++) {
        snprintf(name, sizeof name, "n%d", turn * turn % 61);
        int count = count_name(name);
        if (count > most)
            most = count;
    }
    return most;
}

/* ---- what is done ------------------------------------------------------------------ */

static long sort_some(int count, unsigned seed, int (*before)(long, long))
{
    static long numbers[400];
    if (count > 400)
        count = 400;
    for (int place = 0; place < count; place++) {
        seed = seed * 1103515245 + 12345;
        numbers[place] = seed >> 16 & 0x3ff;
    }
    quick(numbers, numbers + count, before);
    return is_sorted(numbers, count, before) ? numbers[count / 2] : -1;
}

static void do_one(const char *word)
{
    if (strncmp(word, "sort=", 5) == 0) {
        int count = atoi(word + 5);
        printf("sort %ld %ld %ld\n", sort_some(count, 1, up), sort_some(count / 20, 2, down), sort_some(count / 30, 3, by_low_digit));
    } else if (strncmp(word, "fib=", 4) == 0) {
        printf("fib %ld\n", fib(atoi(word + 4)));
    } else if (strncmp(word, "names=", 6) == 0) {
        printf("names %d\n", count_names(atoi(word + 6)));
    } else if (strncmp(word, "common=", 7) == 0) {
        long one = strtol(word + 7, NULL, 10);
        printf("common %ld\n", common(one, one * 7 / 3 + 1));
    } else {
        long value = 0;
        for (int turn = 0; turn < 20; turn++)
            value += calculate(word);
        printf("%s %ld\n", word, value);
    }
}

int main(int count, char **words)
{
    static char *usual[] = {"", "sort=300", "a=3*(4+5)-6/2", "b=-a*(a-1)+2*a", "a+b*2", "8/(a-a)", "fib=14", "names=200", "common=40902"};
    if (count < 2) {
        words = usual;
        count = sizeof usual / sizeof usual[0];
    }
    for (int place = 1; place < count; place++)
        do_one(words[place]);
    return 0;
}

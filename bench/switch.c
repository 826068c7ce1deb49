/* Runs a program of steps with all tests: a loop around a switch over decoded steps, for bench/run to compare with.
 *
 *     switch PROGRAM STEPS < NUMBERS
 *
 * Reads the text of a program, decodes it once, and makes at most STEPS steps. Prints what `execute` prints, with all
 * tests done, and behind it how many steps were made. */

#include <stdint.h>
#include <stdio.h>
#include <stdlib.h>

enum kind { SET, ADD, SUB, MUL, LOAD, STORE, ASK, SHOW, GO, LESS, STOP };
enum tag { NUMBER, VARIABLE };

struct operand {
    enum tag tag;
    int64_t value; /* the number, or which variable */
};

struct array {
    uint64_t length;
    int64_t *numbers;
};

struct step {
    enum kind kind;
    uint32_t x; /* the variable that is changed, the array of a store, or the place */
    uint32_t array;
    int64_t c;
    struct operand e, f;
};

struct program {
    int64_t variables, arrays, steps;
    struct array array[16];
    struct step *step; /* with a `stop` at the end */
};

struct list {
    size_t count, room;
    int64_t *number;
};

static void die(const char *why) {
    fprintf(stderr, "switch: %s\n", why);
    exit(1);
}

static void *get(size_t count, size_t size) {
    void *memory = calloc(count ? count : 1, size);
    if (!memory) die("no memory");
    return memory;
}

static void push(struct list *list, int64_t number) {
    if (list->count == list->room) {
        list->room = list->room ? 2 * list->room : 64;
        list->number = realloc(list->number, list->room * sizeof *list->number);
        if (!list->number) die("no memory");
    }
    list->number[list->count++] = number;
}

static struct list read_numbers(FILE *file) {
    struct list list = {0};
    char word[32];
    for (;;) {
        int got = fscanf(file, " %31[-0-9]", word);
        if (got == 1) {
            push(&list, strtoll(word, NULL, 10));
        } else if (got == EOF) {
            return list;
        } else if (getc(file) == '#') {
            int c;
            while ((c = getc(file)) != '\n' && c != EOF) {
            }
        } else {
            die("a word is no number");
        }
    }
}

/* The next number of the rows, which must lie from `from` to `to`. */
static int64_t next(const struct list *rows, size_t *at, int64_t from, int64_t to) {
    if (*at == rows->count) die("no program: a number is missing");
    int64_t number = rows->number[(*at)++];
    if (number < from || number > to) die("no program: a number may not stand where it does");
    return number;
}

static struct program decode(const struct list *rows) {
    struct program p = {0};
    size_t at = 0;
    p.variables = next(rows, &at, 1, 64);
    p.arrays = next(rows, &at, 0, 16);
    for (int64_t i = 0; i < p.arrays; i++) {
        p.array[i].length = next(rows, &at, 0, 65536);
        p.array[i].numbers = get(p.array[i].length, sizeof(int64_t));
    }
    p.steps = next(rows, &at, 0, 4096);
    p.step = get(p.steps + 1, sizeof *p.step);
#define VARIABLE_NEXT next(rows, &at, 0, p.variables - 1)
#define ARRAY_NEXT next(rows, &at, 0, p.arrays - 1)
#define PLACE_NEXT next(rows, &at, 0, p.steps)
#define NUMBER_NEXT next(rows, &at, INT64_MIN, INT64_MAX)
#define OPERAND_NEXT(o) ((o).tag = next(rows, &at, 0, 1), (o).value = (o).tag == VARIABLE ? VARIABLE_NEXT : NUMBER_NEXT)
    for (int64_t i = 0; i < p.steps; i++) {
        struct step *s = &p.step[i];
        s->kind = next(rows, &at, SET, STOP);
        switch (s->kind) {
        case SET: s->x = VARIABLE_NEXT; OPERAND_NEXT(s->e); break;
        case ADD:
        case SUB: s->x = VARIABLE_NEXT; OPERAND_NEXT(s->e); OPERAND_NEXT(s->f); break;
        case MUL: s->x = VARIABLE_NEXT; s->c = NUMBER_NEXT; OPERAND_NEXT(s->e); break;
        case LOAD: s->x = VARIABLE_NEXT; s->array = ARRAY_NEXT; OPERAND_NEXT(s->e); break;
        case STORE: s->array = ARRAY_NEXT; OPERAND_NEXT(s->e); OPERAND_NEXT(s->f); break;
        case ASK: s->x = VARIABLE_NEXT; break;
        case SHOW: OPERAND_NEXT(s->e); break;
        case GO: s->x = PLACE_NEXT; break;
        case LESS: s->x = PLACE_NEXT; OPERAND_NEXT(s->e); OPERAND_NEXT(s->f); break;
        case STOP: break;
        }
    }
    if (at != rows->count) die("no program: numbers behind the last step");
    p.step[p.steps].kind = STOP;
    return p;
}

static inline int64_t value(const int64_t *v, const struct operand *o) {
    return o->tag == VARIABLE ? v[o->value] : o->value;
}

int main(int count, char **word) {
    if (count != 3) die("usage: switch PROGRAM STEPS < NUMBERS");
    FILE *file = fopen(word[1], "r");
    if (!file) die("the program can't be read");
    struct list rows = read_numbers(file), asked = read_numbers(stdin), shown = {0};
    struct program p = decode(&rows);
    const struct array *array = p.array;
    const struct step *first = p.step, *s = first;
    int64_t v[64] = {0};
    uint64_t most = strtoull(word[2], NULL, 10), left = most, tests = 0;
    size_t used = 0;
    const char *end = "more";

    while (left > 0) {
        left--;
        int64_t e, r;
        switch (s->kind) {
        case SET:
            v[s->x] = value(v, &s->e);
            s++;
            continue;
        case ADD:
            tests++;
            if (__builtin_add_overflow(value(v, &s->e), value(v, &s->f), &r)) goto failed;
            v[s->x] = r;
            s++;
            continue;
        case SUB:
            tests++;
            if (__builtin_sub_overflow(value(v, &s->e), value(v, &s->f), &r)) goto failed;
            v[s->x] = r;
            s++;
            continue;
        case MUL:
            tests++;
            if (__builtin_mul_overflow(s->c, value(v, &s->e), &r)) goto failed;
            v[s->x] = r;
            s++;
            continue;
        case LOAD:
            tests++;
            e = value(v, &s->e);
            if ((uint64_t)e >= array[s->array].length) goto failed;
            v[s->x] = array[s->array].numbers[e];
            s++;
            continue;
        case STORE:
            tests++;
            e = value(v, &s->e);
            if ((uint64_t)e >= array[s->array].length) goto failed;
            array[s->array].numbers[e] = value(v, &s->f);
            s++;
            continue;
        case ASK:
            v[s->x] = used < asked.count ? asked.number[used++] : 0;
            s++;
            continue;
        case SHOW:
            push(&shown, value(v, &s->e));
            s++;
            continue;
        case GO:
            s = first + s->x;
            continue;
        case LESS:
            s = value(v, &s->e) < value(v, &s->f) ? first + s->x : s + 1;
            continue;
        case STOP:
            end = "stopped";
            goto done;
        }
        __builtin_unreachable();
    }
    goto done;
failed:
    end = "failed";
done:
    for (size_t i = 0; i < shown.count; i++) printf("%lld\n", (long long)shown.number[i]);
    printf("# %s", end);
    if (end[0] == 'f') printf(" %td", s - first);
    printf(" shown %zu tests %llu\n", shown.count, (unsigned long long)tests);
    printf("# steps %llu\n", (unsigned long long)(most - left));
    return 0;
}

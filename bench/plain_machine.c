// A machine of threads over a heap whose cells have values and writing marks, as an engineer would write it in a day: no limit on
// cells, no refused allocation, nothing proved. bench/machine runs the same programs and schedules on it and on the proved one.
//
//     plain_machine NAME EVENTS TIMES      NAME is cells, calls or locks
//
// Runs the program's schedule of so many events so many times, and prints what the last run leaves.
#include <stdbool.h>
#include <stdint.h>
#include <stdio.h>
#include <stdlib.h>
#include <string.h>

typedef struct { uint32_t object; uint64_t offset, length, capacity; } Slice;
typedef enum { WORD, TRUTH, REF, SLICE } Kind;
typedef struct { Kind kind; union { uint64_t word; bool truth; uint32_t ref; Slice slice; } as; } Value;
typedef struct { Value value; bool marked; } Cell;
typedef struct { Cell *cells; uint64_t count; bool mutex, locked; } Object;

typedef enum { CONSTANT, LOCAL, PLUS, AND } Operator;
typedef struct Expression { Operator op; uint64_t n; const struct Expression *a, *b; } Expression;

typedef enum { LET, NEW, MAKE, MUTEX, LOAD, STORE, AT, PUT, LOCK, UNLOCK, LOOP, CONTINUE, CALL, RETURN } Word;
typedef struct { Word word; int x, field, next; const Expression *e[3]; int count; } Command;
typedef struct { const Command *body; int params, locals; } Procedure;

typedef struct { const Procedure *procedure; int at, target; Value locals[8]; } Frame;
typedef struct { Frame *frames; int depth, room; bool begun; } Thread;
typedef struct { Thread *threads; int threads_count; Object *objects; uint32_t objects_count, objects_room; } Machine;
typedef enum { DONE, BLOCKED, UNDEFINED } Outcome;

static void *checked(void *memory) { if (!memory) abort(); return memory; }

static uint32_t fresh(Machine *m, uint64_t count, bool mutex) {
    if (m->objects_count == m->objects_room) {
        m->objects_room = m->objects_room ? 2 * m->objects_room : 16;
        m->objects = checked(realloc(m->objects, m->objects_room * sizeof *m->objects));
    }
    m->objects[m->objects_count] = (Object){ .cells = checked(calloc(count + 1, sizeof(Cell))), .count = count, .mutex = mutex };
    return ++m->objects_count;
}

static bool value_of(const Frame *f, const Expression *e, Value *out) {
    Value a, b;
    switch (e->op) {
    case CONSTANT: *out = (Value){ WORD, { .word = e->n } }; return true;
    case LOCAL: *out = f->locals[e->n]; return true;
    default:
        if (!value_of(f, e->a, &a) || !value_of(f, e->b, &b) || a.kind != WORD || b.kind != WORD) return false;
        *out = (Value){ WORD, { .word = e->op == PLUS ? a.as.word + b.as.word : a.as.word & b.as.word } };
        return true;
    }
}

static Cell *cell_at(Machine *m, uint32_t object, uint64_t index) {
    if (object == 0 || object > m->objects_count) return NULL;
    Object *o = &m->objects[object - 1];
    return o->mutex || index >= o->count ? NULL : &o->cells[index];
}

static void push(Thread *t, const Procedure *p, const Value *args, int target) {
    if (t->depth == t->room) {
        t->room = t->room ? 2 * t->room : 4;
        t->frames = checked(realloc(t->frames, t->room * sizeof *t->frames));
    }
    Frame *f = &t->frames[t->depth++];
    f->procedure = p;
    f->at = 0;
    f->target = target;
    memset(f->locals, 0, sizeof f->locals);
    for (int i = 0; i < p->params; i++) f->locals[i] = args[i];
}

static Outcome written(Thread *t, Frame *f, const Command *c, Cell *cell, Value v) {
    if (!cell) return UNDEFINED;
    if (!t->begun) {
        if (cell->marked) return UNDEFINED;
        cell->marked = true;
        t->begun = true;
        return DONE;
    }
    *cell = (Cell){ v, false };
    t->begun = false;
    f->at = c->next;
    return DONE;
}

static Outcome read_into(Frame *f, const Command *c, const Cell *cell) {
    if (!cell || cell->marked) return UNDEFINED;
    f->locals[c->x] = cell->value;
    f->at = c->next;
    return DONE;
}

static const Procedure procedures[];

static Outcome step(Machine *m, Thread *t) {
    if (t->depth == 0) return BLOCKED;
    Frame *f = &t->frames[t->depth - 1];
    const Command *c = &f->procedure->body[f->at];
    Value v[3];
    for (int i = 0; i < c->count; i++)
        if (!value_of(f, c->e[i], &v[i])) return UNDEFINED;
    switch (c->word) {
    case LET: f->locals[c->x] = v[0]; break;
    case MAKE: {
        uint32_t object = fresh(m, v[0].as.word, false);
        f->locals[c->x] = (Value){ SLICE, { .slice = { object, 0, v[0].as.word, v[0].as.word } } };
        break;
    }
    case NEW: {
        uint32_t object = fresh(m, c->count, false);
        for (int i = 0; i < c->count; i++) m->objects[object - 1].cells[i].value = v[i];
        f->locals[c->x] = (Value){ REF, { .ref = object } };
        break;
    }
    case MUTEX: f->locals[c->x] = (Value){ REF, { .ref = fresh(m, 0, true) } }; break;
    case LOAD: return v[0].kind != REF ? UNDEFINED : read_into(f, c, cell_at(m, v[0].as.ref, c->field));
    case STORE: return v[0].kind != REF ? UNDEFINED : written(t, f, c, cell_at(m, v[0].as.ref, c->field), v[1]);
    case AT:
    case PUT: {
        if (v[0].kind != SLICE || v[1].kind != WORD || v[1].as.word >= v[0].as.slice.length) return UNDEFINED;
        Cell *cell = cell_at(m, v[0].as.slice.object, v[0].as.slice.offset + v[1].as.word);
        return c->word == AT ? read_into(f, c, cell) : written(t, f, c, cell, v[2]);
    }
    case LOCK:
    case UNLOCK: {
        if (v[0].kind != REF || v[0].as.ref == 0 || v[0].as.ref > m->objects_count) return UNDEFINED;
        Object *o = &m->objects[v[0].as.ref - 1];
        if (!o->mutex) return UNDEFINED;
        if (o->locked == (c->word == LOCK)) return c->word == LOCK ? BLOCKED : UNDEFINED;
        o->locked = !o->locked;
        break;
    }
    case LOOP:
    case CONTINUE: break;
    case CALL:
        f->at = c->next;
        push(t, &procedures[c->field], v, c->x);
        return DONE;
    case RETURN: {
        int target = f->target;
        t->depth--;
        if (t->depth > 0 && c->count > 0) t->frames[t->depth - 1].locals[target] = v[0];
        return DONE;
    }
    }
    f->at = c->next;
    return DONE;
}

#define L(place) &(const Expression){ LOCAL, place, 0, 0 }
#define N(number) &(const Expression){ CONSTANT, number, 0, 0 }
#define SUM(x, y) &(const Expression){ PLUS, 0, x, y }
#define BOTH(x, y) &(const Expression){ AND, 0, x, y }

enum { RECOVER, CELLS, CALLS, LOCKS, ONE };

// T has a slice of 1,024 words, a mutex and a word
static const Command recover[] = {
    { MAKE, 0, 0, 1, { N(1024) }, 1 },
    { MUTEX, 1, 0, 2, { 0 }, 0 },
    { NEW, 2, 0, 3, { L(0), L(1), N(0) }, 3 },
    { RETURN, 0, 0, 0, { L(2) }, 1 },
};
static const Command cells[] = {
    { LOAD, 1, 0, 1, { L(0) }, 1 },
    { LOOP, 0, 0, 2, { 0 }, 0 },
    { AT, 3, 0, 3, { L(1), L(2) }, 2 },
    { PUT, 0, 0, 4, { L(1), L(2), SUM(L(3), N(1)) }, 3 },
    { LET, 2, 0, 5, { BOTH(SUM(L(2), N(1)), N(1023)) }, 1 },
    { CONTINUE, 0, 0, 2, { 0 }, 0 },
};
static const Command calls[] = {
    { LOOP, 0, 0, 1, { 0 }, 0 },
    { CALL, 1, ONE, 2, { L(1) }, 1 },
    { CONTINUE, 0, 0, 1, { 0 }, 0 },
};
static const Command locks[] = {
    { LOAD, 1, 1, 1, { L(0) }, 1 },
    { LOOP, 0, 0, 2, { 0 }, 0 },
    { LOCK, 0, 0, 3, { L(1) }, 1 },
    { LOAD, 2, 2, 4, { L(0) }, 1 },
    { STORE, 0, 2, 5, { L(0), SUM(L(2), N(1)) }, 2 },
    { UNLOCK, 0, 0, 6, { L(1) }, 1 },
    { CONTINUE, 0, 0, 2, { 0 }, 0 },
};
static const Command one[] = { { RETURN, 0, 0, 0, { SUM(L(0), N(1)) }, 1 } };
static const Procedure procedures[] = { { recover, 0, 3 }, { cells, 1, 4 }, { calls, 1, 2 }, { locks, 1, 3 }, { one, 1, 1 } };

static uint64_t run(int procedure, uint64_t events) {
    Thread threads[2] = { { 0 }, { 0 } };
    Machine m = { .threads = threads, .threads_count = 2 };
    push(&threads[0], &procedures[RECOVER], NULL, 0);
    for (int i = 0; i < 4; i++) step(&m, &threads[0]);
    Value receiver = { REF, { .ref = 3 } };
    push(&threads[1], &procedures[procedure], &receiver, 0);
    for (uint64_t i = 5; i < events; i++)
        if (step(&m, &threads[1]) != DONE) abort();
    uint64_t sum = threads[1].frames[0].locals[1].kind == WORD ? threads[1].frames[0].locals[1].as.word : 0;
    for (uint32_t i = 0; i < m.objects_count; i++) {
        for (uint64_t j = 0; j < m.objects[i].count; j++)
            if (m.objects[i].cells[j].value.kind == WORD) sum += m.objects[i].cells[j].value.as.word;
        free(m.objects[i].cells);
    }
    free(m.objects);
    free(threads[0].frames);
    free(threads[1].frames);
    return sum;
}

int main(int count, char **words) {
    if (count != 4) return 2;
    int procedure = !strcmp(words[1], "cells") ? CELLS : !strcmp(words[1], "calls") ? CALLS : LOCKS;
    uint64_t events = strtoull(words[2], NULL, 10), sum = 0;
    for (int times = atoi(words[3]); times > 0; times--) sum = run(procedure, events);
    printf("%llu\n", (unsigned long long)sum);
    return 0;
}

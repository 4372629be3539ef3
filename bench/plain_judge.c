// A search for an explanation of a history, as an engineer would write it in a day: the specification is compiled in, a path is
// one array, moves are undone in place, and nothing is proved. bench/judge runs the same histories on it and on the proved judge;
// both go through the same nodes in the same order.
//
//     plain_judge ENTRIES CALLS TIMES MOST
//
// The history is that of judge_bench. Prints the answer, and how many nodes were gone through.
#include <stdbool.h>
#include <stdint.h>
#include <stdio.h>
#include <stdlib.h>
#include <string.h>

typedef enum { CALL, ANSWER, CRASH, BOOT } Kind;
typedef struct { Kind kind; uint32_t call; uint64_t reply; } Entry;
typedef enum { NEVER, CALLED, ACTED, GONE } Standing;

// What a move has changed, so that it can be undone. `next` is what is added next: 0 for the entry, then the waiting calls.
typedef enum { FIRST, SHOWS_CALL, SHOWS_ANSWER, SHOWS_CRASH, SHOWS_BOOT, ACTS } What;
typedef struct { What what; uint32_t next, call, at; uint64_t field; uint32_t *waiting, waiting_count; Standing *standing; } Frame;

typedef struct {
    const Entry *history; uint32_t count, place, calls;
    uint64_t field;
    Standing *standing; uint64_t *replies;
    uint32_t *waiting, waiting_count;
    Frame *path; uint32_t depth, room;
} Search;

static void *checked(void *memory) { if (!memory) abort(); return memory; }

static Frame *push(Search *s, What what) {
    if (s->depth == s->room) {
        s->room = s->room ? 2 * s->room : 64;
        s->path = checked(realloc(s->path, s->room * sizeof *s->path));
    }
    Frame *f = &s->path[s->depth++];
    *f = (Frame){ .what = what };
    return f;
}

// The one operation: a counter is raised, and what it was is replied.
static uint64_t apply(uint64_t *field) { return (*field)++; }

static void put_in(Search *s, uint32_t call, uint32_t at) {
    memmove(s->waiting + at + 1, s->waiting + at, (s->waiting_count - at) * sizeof *s->waiting);
    s->waiting[at] = call;
    s->waiting_count++;
}

static void take_out(Search *s, uint32_t at) {
    s->waiting_count--;
    memmove(s->waiting + at, s->waiting + at + 1, (s->waiting_count - at) * sizeof *s->waiting);
}

static bool show(Search *s) {
    const Entry *e = &s->history[s->place];
    Frame *f;
    switch (e->kind) {
    case CALL: {
        if (s->standing[e->call] != NEVER) return false;
        uint32_t at = s->waiting_count;
        while (at > 0 && s->waiting[at - 1] > e->call) at--;
        f = push(s, SHOWS_CALL);
        f->call = e->call;
        f->at = at;
        s->standing[e->call] = CALLED;
        put_in(s, e->call, at);
        break;
    }
    case ANSWER:
        if (s->standing[e->call] != ACTED || s->replies[e->call] != e->reply) return false;
        f = push(s, SHOWS_ANSWER);
        f->call = e->call;
        s->standing[e->call] = GONE;
        break;
    case CRASH: push(s, SHOWS_CRASH); break;
    case BOOT:
        f = push(s, SHOWS_BOOT);
        f->waiting_count = s->waiting_count;
        f->waiting = checked(malloc((s->waiting_count + 1) * sizeof *s->waiting));
        memcpy(f->waiting, s->waiting, s->waiting_count * sizeof *s->waiting);
        f->standing = checked(malloc((s->calls + 1) * sizeof *s->standing));
        memcpy(f->standing, s->standing, s->calls * sizeof *s->standing);
        for (uint32_t i = 0; i < s->calls; i++)
            if (s->standing[i] != NEVER) s->standing[i] = GONE;
        s->waiting_count = 0;
        break;
    }
    s->place++;
    return true;
}

static void act(Search *s, uint32_t at) {
    Frame *f = push(s, ACTS);
    f->at = at;
    f->call = s->waiting[at];
    f->field = s->field;
    take_out(s, at);
    s->replies[f->call] = apply(&s->field);
    s->standing[f->call] = ACTED;
}

static void undo(Search *s) {
    Frame *f = &s->path[--s->depth];
    switch (f->what) {
    case FIRST: return;
    case ACTS: s->field = f->field; s->standing[f->call] = CALLED; put_in(s, f->call, f->at); return;
    case SHOWS_CALL: take_out(s, f->at); s->standing[f->call] = NEVER; break;
    case SHOWS_ANSWER: s->standing[f->call] = ACTED; break;
    case SHOWS_CRASH: break;
    case SHOWS_BOOT:
        memcpy(s->waiting, f->waiting, f->waiting_count * sizeof *s->waiting);
        memcpy(s->standing, f->standing, s->calls * sizeof *s->standing);
        s->waiting_count = f->waiting_count;
        free(f->waiting);
        free(f->standing);
        break;
    }
    s->place--;
}

// Goes to the next node, where there is one.
static bool next(Search *s) {
    while (s->depth > 0) {
        uint32_t turn = s->path[s->depth - 1].next++;
        if (turn == 0) {
            if (s->place < s->count && show(s)) return true;
        } else if (turn <= s->waiting_count) {
            act(s, turn - 1);
            return true;
        } else {
            undo(s);
        }
    }
    return false;
}

static const char *judge(const Entry *history, uint32_t count, uint32_t calls, uint64_t most, uint64_t *nodes) {
    Search s = { .history = history, .count = count, .calls = calls };
    s.standing = checked(calloc(calls + 1, sizeof *s.standing));
    s.replies = checked(calloc(calls + 1, sizeof *s.replies));
    s.waiting = checked(calloc(calls + 1, sizeof *s.waiting));
    push(&s, FIRST);
    const char *answer = "spent";
    *nodes = 0;
    while (*nodes < most) {
        ++*nodes;
        if (s.place == count) { answer = "yes"; break; }
        if (!next(&s)) { answer = "no"; break; }
    }
    while (s.depth > 0) undo(&s);
    free(s.standing);
    free(s.replies);
    free(s.waiting);
    free(s.path);
    return answer;
}

int main(int words, char **word) {
    if (words != 5) return 2;
    uint64_t entries = strtoull(word[1], NULL, 10), width = strtoull(word[2], NULL, 10);
    uint64_t times = strtoull(word[3], NULL, 10), most = strtoull(word[4], NULL, 10), nodes = 0;
    uint64_t rounds = entries / (2 * width);
    Entry *history = checked(malloc((2 * width * rounds + 1) * sizeof *history));
    uint32_t count = 0;
    history[count++] = (Entry){ BOOT, 0, 0 };
    for (uint64_t r = 0; r < rounds; r++) {
        for (uint64_t at = 0; at < width; at++) history[count++] = (Entry){ CALL, (uint32_t)(r * width + at), 0 };
        for (uint64_t at = 0; at < width; at++)
            history[count++] = (Entry){ ANSWER, (uint32_t)(r * width + at), r * width + width - 1 - at };
    }
    const char *answer = "nothing";
    for (uint64_t i = 0; i < times; i++) answer = judge(history, count, (uint32_t)(rounds * width), most, &nodes);
    printf("%u entries: %s\n%llu nodes\n", count, answer, (unsigned long long)nodes);
    return 0;
}

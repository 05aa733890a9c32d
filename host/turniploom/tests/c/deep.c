/* The callee trace with the most restarts, 16,383, asked on threads with 64 and 32 KiB of stack. */
#include "turniploom.h"
#include <pthread.h>
#include <stdio.h>

enum { RESTARTS = 16383, COUNT = 4 * RESTARTS + 2 };

static uint16_t code[6 * COUNT];
static turniploom_answer answer;

static void put(size_t k, uint16_t op, uint16_t a, uint16_t b, uint16_t x) {
    uint16_t *at = code + 6 * k;
    at[0] = op, at[2] = a, at[3] = b, at[5] = x;
}

static void *ask(void *unused) {
    answer = turniploom_global_of(code, 6 * COUNT, COUNT - 1);
    return unused;
}

/* Asks on a thread with so much stack; prints the binding. */
static int traced(size_t stack, const char *after) {
    pthread_attr_t attributes;
    pthread_t thread;
    if (pthread_attr_init(&attributes) || pthread_attr_setstacksize(&attributes, stack)) return puts("no such stack"), 1;
    if (pthread_create(&thread, &attributes, ask, NULL) || pthread_join(thread, NULL)) return puts("no thread"), 1;
    if (answer.refusal != 0 || answer.first != 1) return puts("no binding"), 1;
    printf("binding %d%s", (int)answer.second, after);
    return 0;
}

int main(void) {
    put(0, TURNIPLOOM_LoadGlobalR, 0, 7, 0);
    for (size_t k = 1; k < COUNT - 1; k += 4) {
        put(k, TURNIPLOOM_PushRegs, 0, 0, 1);
        put(k + 1, TURNIPLOOM_CallGlobalR, 3, 0, 0);
        put(k + 2, TURNIPLOOM_StoreTopR, 1, 0, 0);
        put(k + 3, TURNIPLOOM_StoreTopR, 0, 0, 0);
    }
    put(COUNT - 1, TURNIPLOOM_CallR, 0, 0, 0);
    return traced(65536, ", ") || traced(32768, "\n");
}

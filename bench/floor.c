/* Times the way of a command alone: a client and a worker, each on a thread, over a ring of 64, and nothing else.
 *
 * Usage: floor COUNT
 *
 * Of the program's way of a command (docs/ARCHITECTURE.md) it has the words that are loaded and stored, the slot that a cargo goes
 * through and back, the three locks (the client's half of the queue, the workers' front, the turn of the book), and the looks,
 * with the pauses and yields between them. The client has one command out at a time: a request of 48 bytes, which the worker reads
 * where the descriptors say that it lies, with a response of 24, as a refused flush has them. No memory is taken for a command,
 * nothing is run, and no entry is made.
 */
#include <pthread.h>
#include <sched.h>
#include <stdatomic.h>
#include <stdbool.h>
#include <stdint.h>
#include <stdio.h>
#include <stdlib.h>
#include <string.h>

enum { SIZE = 64, REQUEST = 48, RESPONSE = 24, NEXT = 1, WRITE = 2 };

/* Where the kinds of words stand: the indices, a descriptor's address and its rest, the elements. */
enum { AVAILABLE = 0, USED = 1, TABLE = 2, AVAILABLE_RING = 2 + 2 * SIZE, USED_RING = 2 + 3 * SIZE, WORDS = 2 + 4 * SIZE };

/* What goes over: its lane and ordinal, the bytes, and as much beside them as a cargo has. */
struct cargo {
    uint64_t lane, ordinal;
    unsigned char request[REQUEST], response[RESPONSE], rest[112];
};

static _Atomic uint64_t words[WORDS];
static _Atomic uint64_t cursor_available;
static _Atomic uint64_t turn;
static struct cargo slots[SIZE];
static pthread_mutex_t half = PTHREAD_MUTEX_INITIALIZER;
static pthread_mutex_t front = PTHREAD_MUTEX_INITIALIZER;
static atomic_bool stop;

/* A look that found nothing: pauses, of which there are twice as many each time, and then yields. */
static void snooze(unsigned *looks)
{
    if (*looks <= 6)
        for (unsigned n = 0; n < 1u << *looks; n++)
            __builtin_ia32_pause();
    else
        sched_yield();
    if (*looks <= 10)
        ++*looks;
}

/* The client's side, under the lock of its half. */
static void publish(uint64_t published, const struct cargo *cargo)
{
    uint64_t head = 2 * published % SIZE, next = head + 1;
    words[TABLE + 2 * head] = 65536 * head;
    words[TABLE + 2 * head + 1] = REQUEST | (uint64_t)NEXT << 32 | next << 48;
    words[TABLE + 2 * next] = 65536 * head + 49152;
    words[TABLE + 2 * next + 1] = RESPONSE | (uint64_t)WRITE << 32;
    words[AVAILABLE_RING + published % SIZE] = head;
    slots[head] = *cargo;
    words[AVAILABLE] = (published + 1) % 65536;
}

static bool reap(uint64_t reaped, struct cargo *cargo)
{
    if (words[USED] == reaped % 65536)
        return false;
    *cargo = slots[(uint32_t)words[USED_RING + reaped % SIZE]];
    return true;
}

static void *client(void *counted)
{
    uint64_t count = *(uint64_t *)counted;
    for (uint64_t done = 0; done < count; done++) {
        struct cargo cargo = {.ordinal = done + 1};
        memset(cargo.request, (int)(done % 251), REQUEST);
        pthread_mutex_lock(&half);
        if (words[USED] != done % 65536)
            abort();
        publish(done, &cargo);
        pthread_mutex_unlock(&half);
        for (unsigned looks = 0;; snooze(&looks)) {
            if (pthread_mutex_trylock(&half) != 0)
                continue;
            bool came = reap(done, &cargo);
            pthread_mutex_unlock(&half);
            if (came)
                break;
        }
        if (cargo.ordinal != done + 1 || cargo.response[RESPONSE - 1] != done % 251)
            abort();
    }
    stop = true;
    return NULL;
}

/* The worker's side. The bytes of a request, by the chain as it stands in the words, of which all are read. */
static void read_request(uint64_t head, const struct cargo *cargo, unsigned char *request)
{
    uint64_t table[2 * SIZE];
    for (int word = 0; word < 2 * SIZE; word++)
        table[word] = words[TABLE + word];
    for (uint64_t at = head;; at = table[2 * at + 1] >> 48) {
        uint64_t from = table[2 * at] - 65536 * head, rest = table[2 * at + 1];
        if ((rest >> 32 & WRITE) == 0 && from + (uint32_t)rest <= REQUEST)
            memcpy(request, cargo->request + from, (uint32_t)rest);
        if ((rest >> 32 & NEXT) == 0)
            return;
    }
}

static bool take(uint64_t fetched, uint64_t *head, struct cargo *cargo, unsigned char *request)
{
    if (words[AVAILABLE] == fetched % 65536)
        return false;
    *head = words[AVAILABLE_RING + fetched % SIZE];
    *cargo = slots[*head];
    if (words[AVAILABLE] != (fetched + 1) % 65536 || cursor_available != 0)
        abort();
    read_request(*head, cargo, request);
    return true;
}

static void answer(struct cargo *cargo, const unsigned char *request)
{
    unsigned looks = 0;
    for (uint64_t none = 0; !atomic_compare_exchange_strong(&turn, &none, 1); none = 0)
        snooze(&looks);
    memcpy(cargo->response, request + REQUEST - RESPONSE, RESPONSE);
    turn = 0;
}

static void complete(uint64_t completed, uint64_t head, const struct cargo *cargo)
{
    words[USED_RING + completed % SIZE] = head | (uint64_t)RESPONSE << 32;
    slots[head] = *cargo;
    words[USED] = (completed + 1) % 65536;
}

static void worker(void)
{
    struct cargo cargo;
    unsigned char request[REQUEST];
    uint64_t done = 0, head;
    for (unsigned looks = 0;;) {
        bool stopped = stop, came = false;
        if (pthread_mutex_trylock(&front) == 0) {
            came = take(done, &head, &cargo, request);
            pthread_mutex_unlock(&front);
        }
        if (came) {
            answer(&cargo, request);
            pthread_mutex_lock(&front);
            complete(done++, head, &cargo);
            pthread_mutex_unlock(&front);
            looks = 0;
        } else if (stopped) {
            return;
        } else {
            snooze(&looks);
        }
    }
}

int main(int words_given, char **given)
{
    uint64_t count = words_given == 2 ? strtoull(given[1], NULL, 10) : 0;
    pthread_t thread;
    if (count == 0 || pthread_create(&thread, NULL, client, &count) != 0) {
        fputs("usage: floor COUNT\n", stderr);
        return 2;
    }
    worker();
    return pthread_join(thread, NULL);
}

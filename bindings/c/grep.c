/* A parallel grep: `grep TEXT PATH..` prints path:line:text of each line that has the text. The lines of a file come
 * together, and the files in any order. As `grep -rnF` does, it passes over links and pipes in a folder, and only names a
 * binary file that has the text. The status is 0 if the text was found, 1 if it was not, and 2 after an error.
 *
 * It shows how workers can sleep. The main thread puts the address of each path into a mailbox, and only the worker that
 * takes it has the path then. No call of the mailbox waits, so a worker that finds nothing sleeps on a condition variable.
 * The mailbox takes as many items as it has cells. When it is full, the main thread searches the files itself. */
#define _GNU_SOURCE /* (for memmem and nftw) */
#include "hazbultra.h"

#include <errno.h>
#include <ftw.h>
#include <pthread.h>
#include <stdatomic.h>
#include <stdio.h>
#include <stdlib.h>
#include <string.h>

#define EXPECT(so) ((so) ? (void)0 : (fprintf(stderr, "grep: not so: %s\n", #so), exit(2)))
enum { WORKERS = 4, CELLS = 65536 };

static const char *text;
static atomic_bool found, failed;
static hz_handle producer, consumers[WORKERS];
static pthread_mutex_t lock = PTHREAD_MUTEX_INITIALIZER;
static pthread_cond_t news = PTHREAD_COND_INITIALIZER;

static void search(char *path) {
    char *line = NULL, *lines = NULL;
    size_t room = 0, size = 0;
    ssize_t length;
    bool is_binary = false;
    FILE *out = open_memstream(&lines, &size), *in = fopen(path, "r");
    EXPECT(out != NULL);
    for (long number = 1; in != NULL && (length = getline(&line, &room, in)) > 0; number++) {
        is_binary |= memchr(line, 0, (size_t)length) != NULL;
        length -= line[length - 1] == '\n';
        if (memmem(line, (size_t)length, text, strlen(text)) != NULL)
            fprintf(out, "%s:%ld:%.*s\n", path, number, (int)length, line);
    }
    if (in == NULL || !feof(in)) {
        fprintf(stderr, "grep: %s: %s\n", path, strerror(errno));
        failed = true;
    }
    EXPECT((in == NULL || fclose(in) == 0) && fclose(out) == 0);
    found |= size > 0;
    if (is_binary && size > 0)
        printf("grep: %s: binary file matches\n", path);
    else
        fwrite(lines, 1, size, stdout);
    free(line), free(lines), free(path);
}

/* Searches files until the lane has ended. */
static void *work(void *consumer) {
    uint64_t item;
    for (;;) {
        uint32_t code = hz_take(consumer, 0, UINT64_MAX, &item);
        if (code == HZ_NOTHING) {
            pthread_mutex_lock(&lock);
            while ((code = hz_take(consumer, 0, UINT64_MAX, &item)) == HZ_NOTHING)
                pthread_cond_wait(&news, &lock);
            pthread_mutex_unlock(&lock);
        }
        if (code != HZ_TOOK)
            return NULL;
        HZ_AFTER_TAKE(item);
        search((char *)(uintptr_t)item);
    }
}

/* Wakes the workers after a put or the end. None misses it, since each takes under the lock before it sleeps. */
static void wake(void) {
    pthread_mutex_lock(&lock);
    pthread_cond_broadcast(&news);
    pthread_mutex_unlock(&lock);
}

/* Puts a path, unless it is a folder, or a link or a pipe in one. If it cannot be read, a worker says why. */
static int put(const char *path, const struct stat *about, int kind, struct FTW *at) {
    if (kind != FTW_DNR && kind != FTW_NS && (kind == FTW_D || (at->level > 0 && !S_ISREG(about->st_mode))))
        return 0;
    char *copy = strdup(path);
    EXPECT(copy != NULL);
    HZ_BEFORE_PUT(copy);
    if (hz_put(&producer, (uintptr_t)copy) != HZ_LINKED)
        search(copy);
    wake();
    return 0;
}

int main(int argc, char **argv) {
    hz_setup setup = {.producers = 1, .consumers = WORKERS, .cells = CELLS, .last = true};
    const uint8_t seed[32] = "any 32 bytes do";
    hz_handle hub = HZ_NONE;
    pthread_t threads[WORKERS];
    uint64_t number;
    if (argc < 3)
        return fputs("usage: grep TEXT PATH..\n", stderr), 2;
    text = argv[1];
    EXPECT(hz_mailbox_new(hz_next_id(), &setup, &hub) == HZ_DONE);
    EXPECT(hz_producer_new(&hub, &producer, &number) == HZ_DONE);
    for (int i = 0; i < WORKERS; i++) {
        EXPECT(hz_consumer_new(&hub, seed, &consumers[i], &number) == HZ_DONE);
        EXPECT(pthread_create(&threads[i], NULL, work, &consumers[i]) == 0);
    }
    for (int i = 2; i < argc; i++)
        if (nftw(argv[i], put, 20, FTW_PHYS) != 0)
            put(argv[i], NULL, FTW_NS, NULL); /* (it is not there) */
    hz_finish(&producer);
    wake();
    for (int i = 0; i < WORKERS; i++) {
        EXPECT(pthread_join(threads[i], NULL) == 0);
        hz_free(&consumers[i]);
    }
    hz_free(&producer), hz_free(&hub);
    EXPECT(fflush(stdout) == 0 && !ferror(stdout));
    return failed ? 2 : !found;
}

/* What the files of a process of the fleet share. */
#ifndef FLEET_H
#define FLEET_H

#include "cli.h"
#include <inttypes.h>
#include <pthread.h>
#include <signal.h>
#include <stdatomic.h>
#include <unistd.h>

enum { MOST_WORKERS = 64, MOST_BATCH = 1024, PLACES = 65536, MOST_WHY = 256 };

/* What became of a job. One that is done is acknowledged. One that failed is given back, and comes again later. A bad one
 * can never be done, and is ended. One that no worker took is left, and given back at once. One that has failed too often
 * is dead: it went to the stream of dead letters. */
enum outcome { DONE, FAILED, BAD, LEFT, DEAD, OUTCOMES };

/* What a worker is to do. */
struct work {
    const char *bytes; /* any bytes */
    size_t length;
    uint64_t delivery; /* 1: the server hands the job out for the first time */
    const char *id;    /* the message's id, or "" */
    uint64_t worker;
    char why[MOST_WHY]; /* for run: why the job failed or is bad, one line */
};

/* What is known of a job's earlier deliveries (tries.c). It is all 0 at the first. */
struct tries {
    uint64_t at;      /* the sequence of the record that says this, or 0 */
    uint64_t failed;  /* how many runs failed */
    uint64_t crashed; /* how often a process ended while it ran this job alone */
    uint64_t known;   /* of the deliveries up to this one it is known how each ended */
    uint64_t alone;   /* the delivery in which a process began to run it alone, if the end of that is not known, or 0 */
    bool is_suspect;  /* whether a delivery was cut off */
    bool is_unread;   /* whether the server did not tell the record, which is not written then */
};

/* A place for a message, whose sequence and time are the same each time that the server hands it out. */
struct job {
    natsMsg *message; /* NULL: the place is free, and has the numbers of a job that ran, or sequence 0 */
    uint64_t sequence;
    int64_t stored;            /* (the sequence alone will not do: a stream that is made anew begins with 1 again) */
    const char *id;            /* of the message, or "" */
    char *answer;              /* of a job that ran: to which subject it was acknowledged */
    _Atomic uint64_t delivery; /* the newest */
    struct tries tries;
    bool is_settling; /* if it is set, one thread alone touches the message, to tell the server of the job's end */
};

extern uint64_t workers, batch, ack, cells, most_tries, backoff, every;
extern const char *metrics;

/* What the threads share. A thread reads and writes it only while it holds the lock. */
extern pthread_mutex_t lock;
extern pthread_cond_t came, room; /* jobs came to workers; a worker took or ended one */
extern struct shared {
    struct mailbox *oldest;
    uint64_t waiting; /* how many jobs no worker has taken yet */
    uint64_t running;
    uint64_t events; /* how many rounds of the main thread may have put jobs */
    atomic_bool is_stopping; /* set while the lock is held, but read without it too */
} shared;

/* What this process counts. `held` is how many jobs it has: those of `waiting`, of `running` and the suspects. */
extern struct counts {
    _Atomic uint64_t outcomes[OUTCOMES], dropped, redelivered, mailboxes, held;
    _Atomic uint64_t lost;    /* jobs whose end the server did not confirm, since it last did or the process is to stop */
    _Atomic uint64_t pending; /* jobs of the stream that the server never handed out */
} counts;

extern natsConnection *connection;
extern jsCtx *jets;
extern int64_t created; /* when the stream was made */
extern atomic_bool has_fault, is_gone; /* the second: there is no stream any more */

/* Says what is wrong, if nothing was before. Unless the process stops already, it sends the signal to stop, which all threads
 * block, and one awaits. */
LINE(1, 2) void fail(const char *format, ...);
bool is_connected(void);

/* run.c: what a job does. `run` returns DONE, FAILED or BAD. */
extern const struct option options_of_run[];
void prepare_run(void);
enum outcome run(struct work *work);

/* boxes.c: the mailboxes between the main thread, which alone calls put and add_mailbox, and the workers. */
bool add_mailbox(void);
bool put(struct job *job);
struct job *get(uint64_t worker);
void end_mailboxes(bool all);

/* jobs.c: from a message to what the server is told of it. */
struct job *admit(natsMsg *message);
void perform(struct job *job, uint64_t worker);
void settle(struct job *job, enum outcome outcome, const char *why);
void tell_progress(void);
void acknowledge_again(void);
int64_t newest_stored(void);

/* tries.c: the limit of tries, and the stream of dead letters. */
void prepare_tries(const jsStreamConfig *of_jobs);
bool load_tries(struct job *job);
void save_tries(struct job *job);
void forget_tries(struct job *job);
bool begin_alone(struct job *job);
bool is_worn_out(const struct job *job);
bool bury(struct job *job, const char *why);

/* report.c: what the process says of itself. */
void report(void);
#endif

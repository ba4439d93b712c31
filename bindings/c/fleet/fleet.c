/* One process of a fleet: README.md says what it promises. The main thread fetches jobs from a NATS JetStream stream, and
 * puts them into mailboxes. Workers take and run them. One more thread tells the server which jobs are in progress, and
 * another waits for signals. */
#include "fleet.h"
#include <errno.h>
#include <string.h>

#define CONSUMER "fleet"
enum { FETCH = 500 }; /* milliseconds */

uint64_t workers = 4, batch = 64, ack = 30, cells = 4096, most_tries = 0, backoff = SECOND, every = 60;
const char *metrics;
static uint64_t drain = 20;

static const struct option options[] = {
    {"--workers", "1 to 64, how many threads run jobs", NULL, &workers, 1, MOST_WORKERS},
    {"--batch", "1 to 1024, how many jobs wait in this process at most", NULL, &batch, 1, MOST_BATCH},
    {"--ack", "1 to 3600 seconds: without a sign of life a job goes to another process then", NULL, &ack, 1, 3600},
    {"--max-tries", "2 to 1000, after how many tries a job is dead; if it is not given, never", NULL, &most_tries, 2, 1000},
    {"--backoff", "0 to 3600000 milliseconds, after which a failed job comes again; each time it doubles", NULL, &backoff,
     0, 3600 * SECOND},
    {"--drain", "1 to 3600 seconds, which a process that is to stop takes at most", NULL, &drain, 1, 3600},
    {"--every", "0 to 3600 seconds between two reports (0: only the last)", NULL, &every, 0, 3600},
    {"--metrics", "to which file reports go too, as Prometheus reads them", &metrics, NULL, 0, 0},
    {"--cells", "1 to 16777216, for how many jobs a mailbox has room", NULL, &cells, 1, 1 << 24},
    {NULL, NULL, NULL, NULL, 0, 0},
};

pthread_mutex_t lock = PTHREAD_MUTEX_INITIALIZER;
pthread_cond_t came = PTHREAD_COND_INITIALIZER, room = PTHREAD_COND_INITIALIZER;
struct shared shared;
struct counts counts;
natsConnection *connection;
jsCtx *jets;
int64_t created;
atomic_bool has_fault, is_gone;
static natsSubscription *subscription;
static _Atomic int64_t newest_before; /* when the newest job was stored that came before the server went away last */
static bool may_stay; /* whether an acknowledged message leaves the stream, of which no other server has a copy */

void fail(const char *format, ...) {
    va_list words;
    if (atomic_exchange(&has_fault, true))
        return;
    va_start(words, format);
    say_list(format, words);
    va_end(words);
    if (!shared.is_stopping) /* (else it would be a second signal) */
        kill(getpid(), SIGTERM);
}

bool is_connected(void) {
    return natsConnection_Status(connection) == NATS_CONN_STATUS_CONNECTED;
}

/* Runs jobs until the process is to stop, and sleeps while there is none. */
static void *work(void *number) {
    uint64_t worker = (uintptr_t)number;
    pthread_mutex_lock(&lock);
    while (!shared.is_stopping) {
        uint64_t seen = shared.events;
        struct job *job = get(worker);
        /* All jobs of the events up to `seen` were put before the poll. So only a later event can bring one. */
        while (!job && seen == shared.events && !shared.is_stopping)
            pthread_cond_wait(&came, &lock);
        if (!job)
            continue;
        shared.waiting--;
        shared.running++;
        pthread_cond_signal(&room);
        pthread_mutex_unlock(&lock);
        perform(job, worker);
        pthread_mutex_lock(&lock);
    }
    pthread_mutex_unlock(&lock);
    nats_ReleaseThreadMemory();
    return NULL;
}

/* Takes out of the stream what was acknowledged and is still there: a server that was killed forgets that it removed it.
 * All up to the consumer's floor is acknowledged, but not a job that took the number of one which the server has lost: such
 * a job was stored after the server went away, and stays. */
static void remove_stayed(const jsConsumerInfo *consumer) {
    const char *filter = consumer->Config->FilterSubject; /* (a floor would pass over what it leaves out) */
    uint64_t floor = consumer->AckFloor.Stream, count = 0;
    natsStatus status = may_stay && !(filter && *filter) ? NATS_OK : NATS_NOT_FOUND;
    for (uint64_t seen = 0; status == NATS_OK && !shared.is_stopping;) {
        jsStreamInfo *info = NULL;
        status = js_GetStreamInfo(&info, jets, stream, NULL, NULL);
        bool has_some = info && info->Created == created && info->State.Msgs > 0;
        uint64_t first = has_some ? info->State.FirstSeq : UINT64_MAX;
        jsStreamInfo_Destroy(info);
        if (first > floor || first <= seen)
            break;
        seen = first;
        natsMsg *message = NULL;
        status = js_GetMsg(&message, jets, stream, first, NULL, NULL);
        if (status == NATS_OK && natsMsg_GetTime(message) > newest_before)
            status = NATS_NOT_FOUND;
        natsMsg_Destroy(message);
        status = status ? status : js_DeleteMsg(jets, stream, first, NULL, NULL);
        count += status == NATS_OK;
    }
    if (count > 0)
        say("%" PRIu64 " jobs that were acknowledged had stayed in the stream, and are removed", count);
}

/* Tells the server each quarter of the consumer's time which jobs are in progress, and checks that the stream is there. */
static void *watch(void *nothing) {
    int64_t quarter = (int64_t)ack * SECOND / 4;
    for (int without = 0; without < 4; without++) {
        tell_progress();
        jsConsumerInfo *info = NULL;
        jsErrCode error = 0;
        natsStatus status = js_GetConsumerInfo(&info, jets, stream, CONSUMER, NULL, &error);
        if (error == JSStreamNotFoundErr || error == JSConsumerNotFoundErr) {
            is_gone = true;
            fail("the stream %s or its consumer %s is gone", stream, CONSUMER);
        }
        if (status != NATS_NO_RESPONDERS)
            without = -1;
        if (info) {
            counts.pending = info->NumPending;
            quarter = info->Config->AckWait / MILLISECOND / 4; /* (another process may have changed it) */
            remove_stayed(info);
        }
        jsConsumerInfo_Destroy(info);
        nats_Sleep(quarter);
    }
    fail("the server has no JetStream any more");
    return nothing;
}

/* Ends the process at once, whatever its threads do. */
static void end_now(const char *reason) {
    say("%s: jobs that run are cut off, and come again", reason);
    report();
    _exit(has_fault ? 1 : 3);
}

/* Waits for signals: at the first the process is to stop, within the time to drain, and at the second it ends. Meanwhile it
 * makes the reports. */
static void *attend(void *signals) {
    int64_t due = every > 0 ? nats_Now() + (int64_t)every * SECOND : INT64_MAX, limit = INT64_MAX;
    for (;;) {
        int64_t wait = (due < limit ? due : limit) - nats_Now();
        wait = wait < 0 ? 0 : wait < 3600 * SECOND ? wait : 3600 * SECOND;
        const struct timespec time = {wait / SECOND, wait % SECOND * MILLISECOND};
        bool is_signal = sigtimedwait(signals, NULL, &time) > 0;
        if (is_signal && limit < INT64_MAX)
            end_now("a second signal");
        if (is_signal) {
            limit = nats_Now() + (int64_t)drain * SECOND;
            pthread_mutex_lock(&lock);
            shared.is_stopping = true;
            pthread_cond_broadcast(&came);
            pthread_cond_broadcast(&room);
            pthread_mutex_unlock(&lock);
        }
        if (nats_Now() >= limit)
            end_now("the time to drain is over");
        if (nats_Now() >= due) {
            report();
            due += (int64_t)every * SECOND;
        }
    }
    return NULL;
}

/* Runs suspects one after another, each alone: nothing runs beside it, and no other job waits for a worker. */
static void run_alone(struct job **suspects, uint64_t count) {
    pthread_mutex_lock(&lock);
    while (!shared.is_stopping && shared.waiting + shared.running > 0)
        pthread_cond_wait(&room, &lock);
    pthread_mutex_unlock(&lock);
    for (uint64_t i = 0; i < count; i++) {
        if (shared.is_stopping || !begin_alone(suspects[i])) {
            settle(suspects[i], LEFT, "");
            continue;
        }
        pthread_mutex_lock(&lock);
        shared.running++;
        pthread_mutex_unlock(&lock);
        perform(suspects[i], workers);
    }
}

/* Puts a new job, or settles it if that cannot be. Returns true if it did neither: the job is a suspect then. */
static bool put_or_hold(struct job *job) {
    bool comes_again = most_tries > 0 && job->delivery > 1, is_known = !comes_again || load_tries(job);
    bool is_dead = is_known && is_worn_out(job), is_alone = is_known && !is_dead && job->tries.is_suspect;
    if (is_known && !is_dead && !is_alone && !has_fault && put(job))
        return false;
    pthread_mutex_lock(&lock);
    shared.waiting--;
    pthread_mutex_unlock(&lock);
    /* (a job that failed too often is here if it could not be stored as dead then) */
    const char *reason = job->tries.failed > 0 ? "a job failed, or ended its process" : "a job ended its process each time";
    if (!is_alone)
        settle(job, is_dead ? DEAD : LEFT, reason);
    return is_alone;
}

/* Fetches and puts jobs until the process is to stop. A fetch begins if at most half a batch waits. */
static void feed(void) {
    jsFetchRequest request;
    jsFetchRequest_Init(&request);
    request.Expires = FETCH * MILLISECOND;
    request.NoWait = true;
    for (;;) {
        struct job *suspects[MOST_BATCH];
        uint64_t count = 0;
        natsMsgList list = {NULL, 0};
        pthread_mutex_lock(&lock);
        while (!shared.is_stopping && shared.waiting > batch / 2)
            pthread_cond_wait(&room, &lock);
        request.Batch = shared.is_stopping ? 0 : (int)(batch - shared.waiting);
        pthread_mutex_unlock(&lock);
        if (request.Batch == 0)
            return;
        /* While the server is away, nothing is asked for: NATS would keep such requests, and send them when it is back. */
        natsStatus status = is_connected() ? natsSubscription_FetchRequest(&list, subscription, &request) : NATS_NOT_FOUND;
        if (status != NATS_OK && status != NATS_TIMEOUT)
            nats_Sleep(100);
        if (status == NATS_NO_MEMORY)
            fail("no jobs are fetched: %s", natsStatus_GetText(status));
        for (int i = 0; i < list.Count; i++) {
            struct job *job = admit(list.Msgs[i]);
            list.Msgs[i] = NULL;
            if (job && put_or_hold(job))
                suspects[count++] = job;
        }
        natsMsgList_Destroy(&list);
        end_mailboxes(false);
        pthread_mutex_lock(&lock);
        shared.events++;
        pthread_cond_broadcast(&came);
        pthread_mutex_unlock(&lock);
        if (count > 0)
            run_alone(suspects, count);
    }
}

/* What happened to the connection. If it is closed, the server refused this process, which fails then. */
static void closed(natsConnection *it, void *nothing) {
    (void)it, (void)nothing;
    fail("the server refuses this process");
}

static void lost(natsConnection *it, void *nothing) {
    (void)nothing;
    if (natsConnection_IsClosed(it))
        return;
    newest_before = newest_stored();
    say("the server is away, and is tried again and again");
}

static void found(natsConnection *it, void *nothing) {
    (void)it, (void)nothing;
    say("the server is back");
    acknowledge_again();
}

/* Returns a setting of a consumer, by NATS' name, with which not each job would come, or not as the fleet needs it. */
static const char *wrong_setting(const jsConsumerConfig *it) {
    const struct {
        const char *name;
        bool is_wrong;
    } all[] = {
        {"ack_policy", it->AckPolicy != js_AckExplicit},
        {"deliver_policy", it->DeliverPolicy != js_DeliverAll},
        {"deliver_subject", it->DeliverSubject && *it->DeliverSubject},
        {"filter_subject", it->FilterSubject && *it->FilterSubject},
        {"replay_policy", it->ReplayPolicy != js_ReplayInstant},
        {"max_deliver", it->MaxDeliver > 0},
        {"headers_only", it->HeadersOnly},
        {"max_batch", it->MaxRequestBatch > 0},
        {"max_expires", it->MaxRequestExpires > 0},
        {"max_bytes", it->MaxRequestMaxBytes > 0},
    };
    for (size_t i = 0; i < sizeof all / sizeof *all; i++)
        if (all[i].is_wrong)
            return all[i].name;
    return NULL;
}

/* Makes the consumer of all the fleet, or gives the one that is there this `ack`. If that is of other use, it exits. */
static natsStatus prepare_consumer(void) {
    const int64_t time = (int64_t)ack * SECOND * MILLISECOND;
    jsConsumerInfo *info = NULL;
    jsConsumerConfig fresh;
    jsConsumerConfig_Init(&fresh);
    fresh.Durable = CONSUMER;
    fresh.AckPolicy = js_AckExplicit;
    fresh.AckWait = time;
    fresh.MaxAckPending = 1000000;
    natsStatus status = js_GetConsumerInfo(&info, jets, stream, CONSUMER, NULL, NULL);
    if (status == NATS_NOT_FOUND)
        status = js_AddConsumer(&info, jets, stream, &fresh, NULL, NULL);
    const char *wrong = status ? NULL : wrong_setting(info->Config);
    if (wrong)
        quit(1, "the consumer %s of the stream %s has a %s that will not do: delete it", CONSUMER, stream, wrong);
    if (status == NATS_OK && info->Config->AckWait != time) {
        info->Config->AckWait = time;
        status = js_UpdateConsumer(NULL, jets, stream, info->Config, NULL, NULL);
    }
    jsConsumerInfo_Destroy(info);
    return status;
}

/* Connects, again and again while the process lives, and joins the fleet. At a fault it exits. */
static void join_fleet(void) {
    natsOptions *to = NULL;
    jsOptions patience;
    jsSubOptions fleet;
    jsOptions_Init(&patience);
    patience.Wait = 2 * SECOND;
    natsStatus status = natsOptions_Create(&to);
    status = status ? status : natsOptions_SetMaxReconnect(to, INT32_MAX);
    status = status ? status : natsOptions_SetReconnectWait(to, FETCH);
    status = status ? status : natsOptions_SetPingInterval(to, 5 * SECOND);
    status = status ? status : natsOptions_SetWriteDeadline(to, 5 * SECOND);
    status = status ? status : natsOptions_SetDisconnectedCB(to, lost, NULL);
    status = status ? status : natsOptions_SetReconnectedCB(to, found, NULL);
    status = status ? status : natsOptions_SetClosedCB(to, closed, NULL);
    if (status)
        quit(1, "%s", why(status));
    jsStreamInfo *info = reach_server(&connection, &jets, to, &patience);
    if (!info)
        quit(1, "the stream %s: stream not found", stream);
    may_stay = info->Config->Retention == js_WorkQueuePolicy && info->Config->Replicas < 2;
    created = info->Created;
    if (most_tries > 0)
        prepare_tries(info->Config);
    jsStreamInfo_Destroy(info);
    status = prepare_consumer();
    jsSubOptions_Init(&fleet);
    fleet.Stream = stream;
    fleet.Consumer = CONSUMER;
    status = status ? status : js_PullSubscribe(&subscription, jets, NULL, NULL, NULL, &fleet, NULL);
    if (status)
        quit(1, "the consumer of the stream %s: %s", stream, why(status));
}

int main(int count, char **words) {
    pthread_t watcher, attendant, threads[MOST_WORKERS];
    sigset_t signals;
    sigemptyset(&signals);
    sigaddset(&signals, SIGTERM);
    sigaddset(&signals, SIGINT);
    pthread_sigmask(SIG_BLOCK, &signals, NULL); /* (before any thread starts, so that all block them) */
    const struct option *own[] = {options, options_of_run, NULL};
    read_options("Usage: fleet [OPTION VALUE]..", own, count, words);
    prepare_run();
    join_fleet();
    if (!add_mailbox())
        return 1;
    int error = pthread_create(&watcher, NULL, watch, NULL);
    error = error ? error : pthread_create(&attendant, NULL, attend, &signals);
    for (uint64_t w = 0; w < workers && !error; w++)
        error = pthread_create(&threads[w], NULL, work, (void *)(uintptr_t)w);
    if (error)
        quit(1, "a thread does not start: %s", strerror(error));
    feed();
    end_mailboxes(true); /* (while workers still run the jobs that they took) */
    for (uint64_t w = 0; w < workers; w++)
        pthread_join(threads[w], NULL);
    report();
    return has_fault ? 1 : counts.held + counts.lost > 0 ? 3 : 0;
}

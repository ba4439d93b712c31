/* The jobs that a process has: from a message to what the server is told of its end. */
#include "fleet.h"
#include <string.h>

static struct job places[PLACES]; /* the place of a message is its sequence modulo PLACES */
/* Who holds this lock may use a message that is not settling. It is taken before the other lock. */
static pthread_mutex_t telling = PTHREAD_MUTEX_INITIALIZER;

/* Stores a message in its place, and returns that. Returns NULL if this process has the message already or has run it, or
 * if another has the place. One that ran is acknowledged again. (One whose place another message has comes later.) */
struct job *admit(natsMsg *message) {
    jsMsgMetaData *about = NULL;
    natsStatus status = natsMsg_GetMetaData(&about, message);
    if (status) {
        fail("a message is not understood: %s", why(status));
        natsMsg_Destroy(message);
        return NULL;
    }
    struct job *place = &places[about->Sequence.Stream % PLACES];
    struct job fresh = {.message = message, .sequence = about->Sequence.Stream, .stored = about->Timestamp};
    fresh.delivery = about->NumDelivered;
    jsMsgMetaData_Destroy(about);
    if (natsMsgHeader_Get(message, "Nats-Msg-Id", &fresh.id) != NATS_OK)
        fresh.id = "";
    pthread_mutex_lock(&lock);
    bool is_known = place->sequence == fresh.sequence && place->stored == fresh.stored;
    bool is_held = place->message != NULL, is_new = !is_known && !is_held;
    if (is_new) {
        free(place->answer);
        *place = fresh;
    } else if (is_known) {
        place->delivery = fresh.delivery;
    }
    shared.waiting += is_new;
    counts.held += is_new;
    pthread_mutex_unlock(&lock);
    counts.dropped += !is_new;
    counts.redelivered += fresh.delivery > 1;
    if (is_known && !is_held)
        natsMsg_Ack(message, NULL);
    if (!is_new)
        natsMsg_Destroy(message);
    return is_new ? place : NULL;
}

/* Tells the server of a job's end, until it confirms that, `ack` seconds are over, or there is no stream any more. */
static natsStatus confirm(natsMsg *message, const char *end) {
    natsStatus status = NATS_NOT_FOUND;
    for (int64_t limit = nats_Now() + (int64_t)ack * SECOND; status && !is_gone && nats_Now() < limit;) {
        natsMsg *answer = NULL;
        /* (what is asked while the server is away would be kept, and sent when it is back) */
        status = NATS_CONNECTION_DISCONNECTED;
        if (is_connected())
            status = natsConnection_RequestString(&answer, connection, natsMsg_GetReply(message), end, 2 * SECOND);
        natsMsg_Destroy(answer);
        if (status)
            nats_Sleep(100);
    }
    static atomic_bool is_told; /* (one line says it, until all is well again) */
    if (status && !is_gone && !atomic_exchange(&is_told, true))
        say("the server does not confirm the ends of jobs, which may run again: %s", natsStatus_GetText(status));
    else if (!status)
        is_told = false;
    return status;
}

/* Counts how a job ended, and what that means under the limit of tries. Returns what the server is to be told. */
static enum outcome judge(struct job *job, enum outcome outcome, const char *reason) {
    counts.outcomes[outcome] += outcome == DONE || outcome == FAILED || outcome == BAD;
    job->tries.failed += outcome == FAILED || outcome == BAD;
    if (most_tries == 0 || outcome == DONE)
        return outcome;
    if (outcome == BAD || outcome == DEAD || is_worn_out(job)) {
        if (bury(job, reason))
            return DEAD;
        outcome = FAILED;
    }
    save_tries(job);
    return outcome;
}

/* Ends what this process has to do with a job. Until the server confirms that, or does not for long, the job keeps its
 * place. So its message is dropped if it comes again meanwhile. */
void settle(struct job *job, enum outcome outcome, const char *reason) {
    static const char *const what[OUTCOMES] = {
        [FAILED] = "is given back", [BAD] = "is ended", [DEAD] = "goes to the dead letters"};
    outcome = judge(job, outcome, reason);
    if (what[outcome])
        say("message %" PRIu64 ": %s, and %s", job->sequence, reason, what[outcome]);
    bool is_counted = most_tries > 0 && !is_worn_out(job); /* (else each delivery counts, as if there were no limit) */
    uint64_t tries = is_counted ? job->tries.failed : job->delivery, wait = outcome == FAILED ? backoff : 0;
    for (uint64_t i = 1; i < tries && wait < 3600 * SECOND; i++)
        wait *= 2;
    wait = wait < 3600 * SECOND ? wait : 3600 * SECOND;
    char again[64];
    snprintf(again, sizeof again, wait > 0 ? "-NAK {\"delay\": %" PRIu64 "}" : "-NAK", wait * MILLISECOND);
    pthread_mutex_lock(&telling);
    pthread_mutex_lock(&lock);
    job->is_settling = true;
    pthread_mutex_unlock(&lock);
    pthread_mutex_unlock(&telling);
    bool is_ended = outcome == DONE || outcome == DEAD;
    natsStatus status = confirm(job->message, is_ended ? "+ACK" : outcome == BAD ? "+TERM" : again);
    if ((is_ended || outcome == BAD) && !status)
        forget_tries(job);
    counts.outcomes[outcome] += (outcome == LEFT && !status) || outcome == DEAD;
    pthread_mutex_lock(&lock);
    counts.lost = status ? counts.lost + 1 : shared.is_stopping ? counts.lost : 0;
    char *answer = is_ended ? strdup(natsMsg_GetReply(job->message)) : NULL; /* (without memory it is not sent again) */
    natsMsg_Destroy(job->message);
    *job = (struct job){.sequence = is_ended ? job->sequence : 0, .stored = job->stored, .answer = answer};
    counts.held--;
    pthread_mutex_unlock(&lock);
}

/* Runs a job, and settles it. */
void perform(struct job *job, uint64_t worker) {
    struct work work = {natsMsg_GetData(job->message), (size_t)natsMsg_GetDataLength(job->message), job->delivery, job->id,
                        worker, ""};
    enum outcome outcome = run(&work);
    settle(job, outcome, work.why);
    pthread_mutex_lock(&lock);
    shared.running--;
    pthread_cond_signal(&room);
    pthread_mutex_unlock(&lock);
}

/* Tells the server which jobs are in progress. If this fails, the next round tells it. */
void tell_progress(void) {
    for (struct job *job = places; job < places + PLACES; job++) {
        pthread_mutex_lock(&telling);
        pthread_mutex_lock(&lock);
        natsMsg *message = job->is_settling ? NULL : job->message;
        pthread_mutex_unlock(&lock);
        if (message)
            natsMsg_InProgress(message, NULL);
        pthread_mutex_unlock(&telling);
    }
}

/* Whether the stream is the one that this process knows, with all messages up to its newest, and without replicas. */
static bool is_to_be_told(void) {
    struct job newest = {0};
    jsStreamInfo *info = NULL;
    natsMsg *message = NULL;
    pthread_mutex_lock(&lock);
    for (struct job *job = places; job < places + PLACES; job++)
        if (job->sequence > newest.sequence) {
            newest.sequence = job->sequence;
            newest.stored = job->stored;
        }
    pthread_mutex_unlock(&lock);
    for (uint64_t i = 0; i < ack && js_GetStreamInfo(&info, jets, stream, NULL, NULL) != NATS_OK; i++)
        nats_Sleep(SECOND);
    bool is_same = info && info->Created == created && info->State.LastSeq >= newest.sequence && info->Config->Replicas < 2;
    if (is_same && js_GetMsg(&message, jets, stream, newest.sequence, NULL, NULL) == NATS_OK)
        is_same = natsMsg_GetTime(message) == newest.stored;
    natsMsg_Destroy(message);
    jsStreamInfo_Destroy(info);
    return is_same;
}

/* Returns when the newest job was stored that this process has, or has had. */
int64_t newest_stored(void) {
    int64_t newest = 0;
    pthread_mutex_lock(&lock);
    for (struct job *job = places; job < places + PLACES; job++)
        newest = job->stored > newest ? job->stored : newest;
    pthread_mutex_unlock(&lock);
    return newest;
}

/* Acknowledges again what this process has done lately: a server that was killed has forgotten some of it. A stream that
 * was made anew, or has lost its newest messages, gives these numbers to other jobs: then nothing is acknowledged again.
 * Replicas forget nothing. */
void acknowledge_again(void) {
    bool is_due = is_to_be_told();
    pthread_mutex_lock(&lock);
    counts.lost = shared.is_stopping ? counts.lost : 0; /* (they come again, if they are not told now) */
    pthread_mutex_unlock(&lock);
    for (struct job *job = places; job < places + PLACES && is_due; job++) {
        char answer[512] = "";
        pthread_mutex_lock(&lock);
        if (job->answer)
            snprintf(answer, sizeof answer, "%s", job->answer);
        pthread_mutex_unlock(&lock);
        if (*answer)
            natsConnection_PublishString(connection, answer, "+ACK");
    }
}

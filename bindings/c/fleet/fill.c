/* Puts each line of its input as one job into a stream of the server. If there is no such stream, it makes one. */
#include "cli.h"
#include <errno.h>
#include <inttypes.h>
#include <pthread.h>
#include <signal.h>
#include <string.h>

enum { PENDING = 4096, REASONS = 8, DAY = 24 * 3600, MOST_NAME = 300, NOTED = 1000 };

static const char *name;
static uint64_t window = DAY;
static const struct option options[] = {
    {"--name", "the name of this fill: a second fill of this name adds no line again", &name, NULL, 0, 0},
    {"--window", "1 to 31536000 seconds, for how long at least the lines of a name are known", NULL, &window, 1, 365 * DAY},
    {NULL, NULL, NULL, NULL, 0, 0},
};

/* What the server said of the jobs sent. A thread reads and writes it only while it holds the lock. */
static pthread_mutex_t lock = PTHREAD_MUTEX_INITIALIZER;
static pthread_cond_t answered = PTHREAD_COND_INITIALIZER;
static uint64_t sent, stored, known, refused;
static char fills[MOST_NAME], subject_of_fill[2 * MOST_NAME];
static uint64_t noted; /* so many first lines of this fill are in the stream, or were */
static struct {
    char text[128];
    uint64_t count;
} reasons[REASONS];
static int64_t most_length; /* of a job, so that it can become a dead letter */
static bool is_away;
static volatile sig_atomic_t is_stopped;

static void stop(int number) {
    is_stopped = number;
}

/* The server went away. The library calls this once, as it may not connect again: a second fill goes on from there. */
static void leave(natsConnection *connection, void *closure) {
    (void)connection, (void)closure;
    pthread_mutex_lock(&lock);
    is_away = true;
    pthread_cond_signal(&answered);
    pthread_mutex_unlock(&lock);
}

/* Waits until the server has answered all jobs but so many. Returns whether it is still there. */
static bool wait_for_answers(uint64_t most) {
    pthread_mutex_lock(&lock);
    while (!is_away && sent - stored - known - refused > most)
        pthread_cond_wait(&answered, &lock);
    bool is_there = !is_away;
    pthread_mutex_unlock(&lock);
    return is_there;
}

/* Counts a job that is not stored, by the reason. The caller has the lock. The last place is for all further reasons. */
static void refuse(const char *reason) {
    int at = 0;
    while (at < REASONS - 1 && reasons[at].count > 0 && strcmp(reasons[at].text, reason))
        at++;
    if (reasons[at].count++ == 0)
        snprintf(reasons[at].text, sizeof reasons[at].text, "%s", at < REASONS - 1 ? reason : "other reasons");
    refused++;
}

/* The library calls this once for each job: with the server's answer, or with the error that came instead. */
static void hear(jsCtx *jets, natsMsg *message, jsPubAck *answer, jsPubAckErr *error, void *closure) {
    (void)jets, (void)closure;
    pthread_mutex_lock(&lock);
    if (error)
        refuse(error->ErrText && *error->ErrText ? error->ErrText : natsStatus_GetText(error->Err));
    else if (answer->Duplicate)
        known++;
    else
        stored++;
    pthread_cond_signal(&answered);
    pthread_mutex_unlock(&lock);
    natsMsg_Destroy(message);
}

/* Makes the stream, or sees to it that the one there keeps ids for long enough, and drops no job to make room. */
static jsStreamInfo *prepare(jsCtx *jets, jsStreamInfo *info) {
    jsStreamConfig fresh;
    jsStreamConfig_Init(&fresh);
    fresh.Name = stream;
    fresh.Retention = js_WorkQueuePolicy;
    fresh.Storage = js_FileStorage;
    fresh.Discard = js_DiscardNew;
    jsStreamConfig *config = info ? info->Config : &fresh;
    check_keeps(config);
    int64_t wanted = (int64_t)window * SECOND * MILLISECOND;
    if (info && config->Duplicates >= wanted)
        return info;
    config->Duplicates = wanted;
    jsStreamInfo *made = NULL;
    natsStatus status = (info ? js_UpdateStream : js_AddStream)(&made, jets, config, NULL, NULL);
    if (status)
        quit(1, "the stream %s is not %s: %s", stream, info ? "changed" : "made", why(status));
    jsStreamInfo_Destroy(info);
    return made;
}

/* Reads how many lines earlier fills of this name noted, within the window. The stream NAME-fills has a message for each
 * name. The server itself forgets the ids of jobs that were done, when it starts anew. */
static void read_note(jsCtx *jets, const jsStreamInfo *info) {
    jsStreamConfig config;
    natsMsg *message = NULL;
    int64_t created = 0;
    jsStreamConfig_Init(&config);
    config.Name = fills;
    config.MaxMsgsPerSubject = 1;
    config.MaxAge = 365LL * DAY * SECOND * MILLISECOND;
    snprintf(fills, sizeof fills, "%s-fills", stream);
    snprintf(subject_of_fill, sizeof subject_of_fill, "%s.*", fills);
    make_stream(jets, &config, info->Config, subject_of_fill);
    snprintf(subject_of_fill, sizeof subject_of_fill, "%s.%s", fills, name);
    if (js_GetLastMsg(&message, jets, fills, subject_of_fill, NULL, NULL) != NATS_OK
        || sscanf(natsMsg_GetData(message), "%" SCNu64 " %" SCNd64, &noted, &created) != 2
        || created != info->Created /* (a stream that was made anew has none of them) */
        || nats_NowInNanoSeconds() - natsMsg_GetTime(message) > (int64_t)window * SECOND * MILLISECOND)
        noted = 0;
    natsMsg_Destroy(message);
}

/* Notes that all lines so far are stored, if they are. Returns whether the server is still there. */
static bool note(jsCtx *jets, const jsStreamInfo *info) {
    char text[64];
    bool is_there = wait_for_answers(0);
    int length = snprintf(text, sizeof text, "%" PRIu64 " %" PRId64, sent, info->Created);
    if (is_there && refused == 0 && sent > noted)
        js_Publish(NULL, jets, subject_of_fill, text, length, NULL, NULL); /* (if this fails, the ids still do) */
    return is_there;
}

/* Sends one job. Its id has its line's number, so two equal jobs are two. Returns whether the server is still there. */
static bool send(jsCtx *jets, const jsStreamInfo *info, const char *job, size_t length) {
    const jsStreamConfig *config = info->Config;
    if (sent < noted) {
        sent++;
        known++;
        return true;
    }
    const char *subject = config->SubjectsLen > 0 ? config->Subjects[0] : stream;
    char id[512];
    int id_length = snprintf(id, sizeof id, "%s:%" PRIu64, name, sent + 1);
    jsPubOptions options;
    jsPubOptions_Init(&options);
    options.MsgId = id;
    options.MaxWait = 60 * SECOND;
    size_t size = length + strlen(subject) + (size_t)id_length + 64; /* (64: what the server adds) */
    char reason[128] = "";
    if ((int64_t)length > most_length)
        snprintf(reason, sizeof reason, "longer than %" PRId64 " bytes, they could not become dead letters", most_length);
    else if (!has_room(jets, config, size, false) && !(wait_for_answers(0) && has_room(jets, config, size, true)))
        snprintf(reason, sizeof reason, "maximum bytes exceeded");
    natsStatus status = *reason ? NATS_OK : js_PublishAsync(jets, subject, job, (int)length, &options);
    pthread_mutex_lock(&lock);
    sent++;
    if (*reason || status)
        refuse(*reason ? reason : why(status));
    pthread_mutex_unlock(&lock);
    return sent % NOTED == 0 ? note(jets, info) : wait_for_answers(PENDING);
}

/* Says what became of the jobs. Returns the status of the process. */
static int tell(void) {
    pthread_mutex_lock(&lock);
    uint64_t unknown = sent - stored - known - refused;
    printf("of %" PRIu64 " jobs %" PRIu64 " went into the stream %s", sent, stored, stream);
    printf(known > 0 ? ", and %" PRIu64 " were known\n" : "\n", known);
    if (is_stopped || is_away)
        say("%s: not all lines were read", is_away ? "the server went away" : "stopped");
    if (unknown > 0)
        say("%" PRIu64 " jobs may be stored: the server did not answer", unknown);
    for (int i = 0; i < REASONS && reasons[i].count > 0; i++)
        say("%" PRIu64 " jobs are not stored: %s", reasons[i].count, reasons[i].text);
    pthread_mutex_unlock(&lock);
    return is_stopped || is_away || refused + unknown > 0;
}

int main(int count, char **words) {
    const struct option *own[] = {options, NULL};
    read_options("Usage: seq 1 1000 | fill --name NAME [OPTION VALUE]..", own, count, words);
    if (!name || strlen(name) > 200 || strpbrk(name, " \t.*>"))
        quit(2, "give --name NAME, without dots and spaces: a second fill of the same name adds no line again");
    struct sigaction action = {.sa_handler = stop, .sa_flags = SA_RESETHAND}; /* (a second signal ends it at once) */
    sigaction(SIGINT, &action, NULL);
    sigaction(SIGTERM, &action, NULL);
    natsConnection *connection = NULL;
    jsCtx *jets = NULL;
    natsOptions *to = NULL;
    jsOptions patience;
    jsOptions_Init(&patience);
    patience.PublishAsync.AckHandler = hear;
    patience.PublishAsync.MaxPending = 2 * PENDING;
    natsStatus status = natsOptions_Create(&to);
    status = status ? status : natsOptions_SetAllowReconnect(to, false);
    status = status ? status : natsOptions_SetClosedCB(to, leave, NULL);
    if (status)
        quit(1, "%s", why(status));
    jsStreamInfo *info = reach_server(&connection, &jets, to, &patience);
    most_length = natsConnection_GetMaxPayload(connection) - MOST_HEADERS;
    info = prepare(jets, info);
    read_note(jets, info);
    char *line = NULL;
    size_t room = 0;
    bool is_there = true;
    for (ssize_t length; !is_stopped && is_there && (length = getline(&line, &room, stdin)) > 0;)
        is_there = send(jets, info, line, (size_t)length - (line[length - 1] == '\n'));
    bool is_broken = ferror(stdin) && !is_stopped;
    if (is_broken)
        say("the input: %s", strerror(errno));
    note(jets, info);
    int code = tell() || is_broken;
    free(line);
    jsStreamInfo_Destroy(info);
    jsCtx_Destroy(jets);
    natsConnection_Destroy(connection);
    nats_CloseAndWait(0);
    return code;
}

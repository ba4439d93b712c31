/* The limit of tries. README.md says what counts as a try. What is known of a job's tries is kept in a stream NAME-tries:
 * one message for each job that was given back, has failed, or was cut off. A job that is worn out goes to the stream
 * NAME-dead. */
#include "fleet.h"
#include <ctype.h>
#include <string.h>

enum { MOST_NAME = 300, DAY = 24 * 3600 };
static char records[MOST_NAME], letters[MOST_NAME];

void prepare_tries(const jsStreamConfig *of_jobs) {
    jsStreamConfig config;
    char subject[MOST_NAME + 2];
    snprintf(records, sizeof records, "%s-tries", stream);
    snprintf(letters, sizeof letters, "%s-dead", stream);
    snprintf(subject, sizeof subject, "%s.*", records);
    jsStreamConfig_Init(&config);
    config.Name = records;
    config.MaxMsgsPerSubject = 1;
    config.MaxAge = 30LL * DAY * SECOND * MILLISECOND; /* (for records of jobs that others took out of the stream) */
    make_stream(jets, &config, of_jobs, subject);
    jsStreamConfig_Init(&config);
    config.Name = letters;
    config.Duplicates = (int64_t)DAY * SECOND * MILLISECOND;
    make_stream(jets, &config, of_jobs, letters);
}

/* Writes the subject of a job's record. */
static const char *subject_of(const struct job *job, char subject[static MOST_NAME + 22]) {
    snprintf(subject, MOST_NAME + 22, "%s.%" PRIu64, records, job->sequence);
    return subject;
}

/* Reads what is known of a job that comes again. Returns whether the server tells it. */
bool load_tries(struct job *job) {
    char subject[MOST_NAME + 22];
    natsMsg *message = NULL;
    jsErrCode error = 0;
    struct tries it = {0};
    int64_t stored = 0;
    int suspect = 0;
    natsStatus status = js_GetLastMsg(&message, jets, records, subject_of(job, subject), NULL, &error);
    job->tries.is_unread = status && error != JSNoMessageFoundErr;
    if (job->tries.is_unread)
        return false;
    int count = status ? 0
                       : sscanf(natsMsg_GetData(message), "%" SCNd64 " %" SCNu64 " %" SCNu64 " %" SCNu64 " %" SCNu64 " %d",
                                &stored, &it.failed, &it.crashed, &it.known, &it.alone, &suspect);
    if (count == 6 && stored == job->stored) { /* (else it is of a job of an earlier stream) */
        job->tries = it;
        job->tries.is_suspect = suspect;
    }
    job->tries.at = status ? 0 : natsMsg_GetSequence(message);
    natsMsg_Destroy(message);
    job->tries.crashed += job->tries.alone > 0;
    job->tries.is_suspect |= job->tries.known + 1 < job->delivery;
    return true;
}

static bool write_record(struct job *job, uint64_t known, uint64_t alone) {
    if (!is_connected() || is_gone || job->tries.is_unread)
        return false;
    struct tries *it = &job->tries;
    char subject[MOST_NAME + 22], text[160];
    jsPubAck *answer = NULL;
    jsPubOptions options;
    it->known = known;
    it->alone = alone;
    jsPubOptions_Init(&options);
    options.ExpectStream = records;
    int length = snprintf(text, sizeof text, "%" PRId64 " %" PRIu64 " %" PRIu64 " %" PRIu64 " %" PRIu64 " %d", job->stored,
                          it->failed, it->crashed, known, alone, it->is_suspect);
    natsStatus status = js_Publish(&answer, jets, subject_of(job, subject), text, length, &options, NULL);
    it->at = answer ? answer->Sequence : it->at;
    jsPubAck_Destroy(answer);
    if (status)
        say("the tries of a job are not kept in %s: %s", records, why(status));
    return !status;
}

/* Writes down that all deliveries of a job have a known end. If this fails, the job is a suspect when it comes again. */
void save_tries(struct job *job) {
    write_record(job, job->delivery, 0);
}

/* Writes down that the job is going to run alone. Returns whether the server has that: if not, it may not run now. */
bool begin_alone(struct job *job) {
    return write_record(job, job->delivery - 1, job->delivery);
}

/* Deletes the record of a job that has left the stream. */
void forget_tries(struct job *job) {
    if (job->tries.at > 0)
        js_DeleteMsg(jets, records, job->tries.at, NULL, NULL);
}

/* How many tries of a job count. If it ended a process while it ran alone, so did the delivery that made it a suspect. */
static uint64_t tries_of(const struct job *job) {
    return job->tries.failed + job->tries.crashed + (job->tries.crashed > 0);
}

bool is_worn_out(const struct job *job) {
    return most_tries > 0 && tries_of(job) >= most_tries;
}

/* Puts a job into the stream of dead letters, with headers that say why. Returns whether it is stored there. */
bool bury(struct job *job, const char *reason) {
    char id[64], tries[24], sequence[24], line[MOST_WHY];
    snprintf(id, sizeof id, "%" PRIu64 "-%" PRId64, job->sequence, job->stored); /* (so it is stored once) */
    snprintf(tries, sizeof tries, "%" PRIu64, tries_of(job));
    snprintf(sequence, sizeof sequence, "%" PRIu64, job->sequence);
    snprintf(line, sizeof line, "%s", reason);
    for (char *it = line; *it; it++)
        *it = isprint((unsigned char)*it) ? *it : '?';
    natsMsg *letter = NULL;
    jsPubAck *answer = NULL;
    jsPubOptions options;
    jsPubOptions_Init(&options);
    options.ExpectStream = letters;
    options.MsgId = id;
    natsStatus status = natsMsg_Create(&letter, letters, NULL, natsMsg_GetData(job->message),
                                       natsMsg_GetDataLength(job->message));
    status = status ? status : natsMsgHeader_Set(letter, "Fleet-Reason", line);
    status = status ? status : natsMsgHeader_Set(letter, "Fleet-Tries", tries);
    status = status ? status : natsMsgHeader_Set(letter, "Fleet-Sequence", sequence);
    status = status || !*job->id ? status : natsMsgHeader_Set(letter, "Fleet-Id", job->id);
    status = status ? status : js_PublishMsg(&answer, jets, letter, &options, NULL);
    if (status)
        say("a dead job is not stored in %s: %s", letters, why(status));
    jsPubAck_Destroy(answer);
    natsMsg_Destroy(letter);
    return !status;
}

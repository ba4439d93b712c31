/* Prints the dead letters of a stream of jobs, or puts their jobs back into it. tries.c makes the letters. */
#include "cli.h"
#include <ctype.h>
#include <inttypes.h>
#include <string.h>

static const char *again;
static const struct option options[] = {
    {"--again", "which jobs go back into the stream: the number of a letter, or all", &again, NULL, 0, 0},
    {NULL, NULL, NULL, NULL, 0, 0},
};
static char letters[300];
static uint64_t count; /* how many jobs went back */

static const char *header(natsMsg *letter, const char *name) {
    const char *value = NULL;
    return natsMsgHeader_Get(letter, name, &value) == NATS_OK ? value : "";
}

/* Prints bytes and a last sign. A terminal or a reader of lines might take some bytes for its own: they become numbers. */
static void print(const char *bytes, int length, char last) {
    for (int i = 0; i < length; i++)
        printf(isprint((unsigned char)bytes[i]) && bytes[i] != '\\' ? "%c" : "\\x%02x", (unsigned char)bytes[i]);
    putchar(last);
}

static void print_letter(natsMsg *letter) {
    static const char *const names[] = {"Fleet-Id", "Fleet-Tries", "Fleet-Reason"};
    printf("%" PRIu64 "\t", natsMsg_GetSequence(letter));
    for (int i = 0; i < 3; i++)
        print(header(letter, names[i]), (int)strlen(header(letter, names[i])), '\t');
    print(natsMsg_GetData(letter), natsMsg_GetDataLength(letter), '\n');
}

/* Puts a letter's job back, and then deletes the letter. If that breaks off, the same id comes the next time, so the job is
 * not stored twice. Before the job's own id it names the letter, since the stream still knows the own one. */
static void put_back(jsCtx *jets, const jsStreamConfig *config, natsMsg *letter) {
    const char *subject = config->SubjectsLen > 0 ? config->Subjects[0] : stream, *own = header(letter, "Fleet-Id");
    uint64_t number = natsMsg_GetSequence(letter);
    int length = natsMsg_GetDataLength(letter), earlier = 0;
    char id[512];
    sscanf(own, "again:%*[0-9]:%*[0-9]:%n", &earlier);
    snprintf(id, sizeof id, "again:%" PRIu64 ":%" PRId64 ":%s", number, natsMsg_GetTime(letter), own + earlier);
    jsPubOptions to;
    jsPubOptions_Init(&to);
    to.ExpectStream = stream;
    to.MsgId = id;
    /* (512: the headers, and what the server adds) */
    bool is_room = has_room(jets, config, (uint64_t)length + strlen(subject) + strlen(id) + strlen(stream) + 512, true);
    natsStatus status = is_room ? js_Publish(NULL, jets, subject, natsMsg_GetData(letter), length, &to, NULL) : NATS_OK;
    if (!is_room || status)
        quit(1, "%" PRIu64 " jobs went back, and letter %" PRIu64 " stays: %s", count, number,
             is_room ? why(status) : "maximum bytes exceeded");
    count++;
    status = js_DeleteMsg(jets, letters, number, NULL, NULL);
    if (status)
        quit(1, "%" PRIu64 " jobs went back, and the last one's letter %" PRIu64 " stays: %s", count, number, why(status));
}

/* Prints or puts back one letter, or all that are there now. */
static void handle(jsCtx *jets, const jsStreamConfig *config, uint64_t only) {
    jsStreamInfo *info = NULL;
    natsStatus status = js_GetStreamInfo(&info, jets, letters, NULL, NULL);
    if (status)
        quit(1, "the stream %s: %s", letters, why(status));
    uint64_t first = only ? only : info->State.FirstSeq, last = only ? only : info->State.LastSeq;
    for (uint64_t number = first > 0 ? first : 1; number <= last; number++) {
        natsMsg *letter = NULL;
        jsErrCode error = 0;
        status = js_GetMsg(&letter, jets, letters, number, NULL, &error);
        if (error == JSNoMessageFoundErr && !only)
            continue;
        if (status)
            quit(1, "letter %" PRIu64 ": %s", number, why(status));
        if (again)
            put_back(jets, config, letter);
        else
            print_letter(letter);
        natsMsg_Destroy(letter);
    }
    jsStreamInfo_Destroy(info);
}

int main(int words_count, char **words) {
    const struct option *own[] = {options, NULL};
    read_options("Usage: dead [OPTION VALUE]..\n\n"
                 "Prints a line for each dead letter: its number, the job's id, how many tries, why, and the job.",
                 own, words_count, words);
    uint64_t only = 0; /* 0: all */
    if (again && strcmp(again, "all") && !is_number(again, strlen(again), 1, INT64_MAX, &only))
        quit(2, "--again %s: give the number of a letter, or all", again);
    snprintf(letters, sizeof letters, "%s-dead", stream);
    natsConnection *connection = NULL;
    jsCtx *jets = NULL;
    natsOptions *to = NULL;
    jsOptions patience;
    jsOptions_Init(&patience);
    natsStatus status = natsOptions_Create(&to);
    status = status ? status : natsOptions_SetAllowReconnect(to, false);
    if (status)
        quit(1, "%s", why(status));
    jsStreamInfo *jobs = reach_server(&connection, &jets, to, &patience);
    if (!jobs)
        quit(1, "the stream %s: stream not found", stream);
    if (again)
        check_keeps(jobs->Config);
    handle(jets, jobs->Config, only);
    if (again)
        printf("%" PRIu64 " jobs went back into the stream %s\n", count, stream);
    jsStreamInfo_Destroy(jobs);
    jsCtx_Destroy(jets);
    natsConnection_Destroy(connection);
    nats_CloseAndWait(0);
    return 0;
}

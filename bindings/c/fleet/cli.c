#include "cli.h"
#include "../hazbultra.h"
#include <errno.h>
#include <inttypes.h>
#include <signal.h>
#include <string.h>

#define TEXT_OF(x) #x
#define TEXT(x) TEXT_OF(x)
#define VERSION TEXT(HZ_VERSION_MAJOR) "." TEXT(HZ_VERSION_MINOR) "." TEXT(HZ_VERSION_PATCH)

const char *program, *server = "nats://127.0.0.1:4222", *stream = "JOBS";
static const char *user, *password, *credentials, *authorities, *certificate, *key;

static const struct option of_server[] = {
    {"--server", "where the NATS server is, or more addresses with commas between", &server, NULL, 0, 0},
    {"--stream", "which stream has the jobs", &stream, NULL, 0, 0},
    {"--user", "the user's name", &user, NULL, 0, 0},
    {"--password", "a file whose first line is the user's password", &password, NULL, 0, 0},
    {"--creds", "a file with the user's token and seed, as nsc writes it", &credentials, NULL, 0, 0},
    {"--ca", "a file of authorities, of which one signed the server's certificate: demands TLS", &authorities, NULL, 0, 0},
    {"--cert", "a file with a certificate for the server, for TLS", &certificate, NULL, 0, 0},
    {"--key", "a file with that certificate's key", &key, NULL, 0, 0},
    {NULL, NULL, NULL, NULL, 0, 0},
};

void say_list(const char *format, va_list words) {
    flockfile(stderr); /* (so that no two lines mix) */
    fprintf(stderr, "%s: ", program);
    vfprintf(stderr, format, words);
    putc('\n', stderr);
    funlockfile(stderr);
}

void say(const char *format, ...) {
    va_list words;
    va_start(words, format);
    say_list(format, words);
    va_end(words);
}

void quit(int status, const char *format, ...) {
    va_list words;
    va_start(words, format);
    say_list(format, words);
    exit(status);
}

bool is_number(const char *text, size_t length, uint64_t least, uint64_t most, uint64_t *number) {
    char digits[21] = "", *end; /* (the greatest number has 20) */
    if (length == 0 || length >= sizeof digits)
        return false;
    memcpy(digits, text, length);
    errno = 0;
    *number = strtoull(digits, &end, 10);
    return *text >= '0' && *text <= '9' && end == digits + length && errno == 0 && *number >= least && *number <= most;
}

static void print_options(const struct option *it) {
    for (; it->name; it++) {
        printf("  %-12s %s", it->name, it->help);
        if (it->number && *it->number >= it->least)
            printf(" (%" PRIu64 ")", *it->number);
        if (it->text && *it->text)
            printf(" (%s)", *it->text);
        putchar('\n');
    }
}

static const struct option *find(const struct option *it, const char *name) {
    while (it->name && strcmp(it->name, name))
        it++;
    return it->name ? it : NULL;
}

static _Noreturn void print_help(const char *use, const struct option *own[]) {
    printf("%s\n\n", use);
    print_options(of_server);
    for (; *own; own++)
        print_options(*own);
    exit(0);
}

void read_options(const char *use, const struct option *own[], int count, char **words) {
    const char *slash = strrchr(words[0], '/');
    program = slash ? slash + 1 : words[0];
    for (int i = 1; i < count; i += 2) {
        const struct option *it = find(of_server, words[i]);
        for (int table = 0; !it && own[table]; table++)
            it = find(own[table], words[i]);
        const char *value = words[i + 1] ? words[i + 1] : "";
        if (!strcmp(words[i], "--help"))
            print_help(use, own);
        if (!strcmp(words[i], "--version"))
            exit(printf("%s " VERSION ", with libnats %s\n", program, nats_GetVersion()) < 0);
        if (!it)
            quit(2, "%s: there is no such option (--help shows all)", words[i]);
        if (it->text && *value)
            *it->text = value;
        else if (!it->number || !is_number(value, strlen(value), it->least, it->most, it->number))
            quit(2, "%s %s: give %s", words[i], value, it->help);
    }
    if (strpbrk(stream, " .*>\"\\"))
        quit(2, "--stream %s: a stream has no such name", stream);
}

const char *why(natsStatus status) {
    natsStatus last = NATS_OK;
    const char *text = nats_GetLastError(&last);
    return text && *text && last == status ? text : natsStatus_GetText(status);
}

/* Sets user and password. A password is read from a file, since all users of the machine see a process's words. */
static natsStatus set_user(natsOptions *to) {
    char line[256] = "";
    FILE *file = password ? fopen(password, "r") : NULL;
    if (password && !(file && fgets(line, sizeof line, file)))
        quit(1, "%s: %s", password, file ? "there is no password" : strerror(errno));
    if (file)
        fclose(file);
    line[strcspn(line, "\n")] = '\0';
    return natsOptions_SetUserInfo(to, user, password ? line : NULL);
}

/* Sets the addresses: a list with commas between them. The library takes no such list together with other options. */
static natsStatus set_addresses(natsOptions *to) {
    const char *addresses[64];
    int count = 0;
    char *list = strdup(server), *rest = NULL;
    for (char *it = list ? strtok_r(list, ", ", &rest) : NULL; it && count < 64; it = strtok_r(NULL, ", ", &rest))
        addresses[count++] = it;
    natsStatus status = natsOptions_SetServers(to, addresses, count);
    free(list);
    return status;
}

jsStreamInfo *reach_server(natsConnection **connection, jsCtx **jets, natsOptions *to, jsOptions *patience) {
    jsStreamInfo *info = NULL;
    jsErrCode error = 0;
    signal(SIGPIPE, SIG_IGN); /* (which a connection by TLS may send when it breaks) */
    natsStatus status = set_addresses(to);
    status = status || !(user || password) ? status : set_user(to);
    status = status || !credentials ? status : natsOptions_SetUserCredentialsFromFiles(to, credentials, NULL);
    status = status || !authorities ? status : natsOptions_SetSecure(to, true);
    status = status || !authorities ? status : natsOptions_LoadCATrustedCertificates(to, authorities);
    status = status || !certificate ? status : natsOptions_LoadCertificatesChain(to, certificate, key);
    status = status ? status : natsOptions_SetName(to, program);
    status = status ? status : natsConnection_Connect(connection, to);
    status = status ? status : natsConnection_JetStream(jets, *connection, patience);
    const char *shown = strchr(server, '@') ? "of --server" : server; /* (before an @ there may be a password) */
    if (status)
        quit(1, "the server %s: %s", shown, why(status));
    natsOptions_Destroy(to);
    status = js_GetStreamInfo(&info, *jets, stream, NULL, &error);
    if (status == NATS_NO_RESPONDERS)
        quit(1, "the server %s has no JetStream: start it with -js", shown);
    if (status && error != JSStreamNotFoundErr)
        quit(1, "the stream %s: %s", stream, why(status));
    return info;
}

void make_stream(jsCtx *jets, jsStreamConfig *config, const jsStreamConfig *of_jobs, const char *subject) {
    jsStreamInfo *info = NULL;
    natsStatus status = js_GetStreamInfo(&info, jets, config->Name, NULL, NULL);
    config->Subjects = &subject;
    config->SubjectsLen = 1;
    config->Storage = of_jobs->Storage;
    config->Replicas = of_jobs->Replicas;
    if (status)
        status = js_AddStream(&info, jets, config, NULL, NULL);
    if (status)
        quit(1, "the stream %s is not made: %s", config->Name, why(status));
    jsStreamInfo_Destroy(info);
}

void check_keeps(const jsStreamConfig *config) {
    if (config->Discard == js_DiscardOld && (config->MaxMsgs > 0 || config->MaxBytes > 0))
        quit(1, "the stream %s drops old jobs when it is full: set its discard policy to new", stream);
    if (config->MaxMsgsPerSubject > 0 && !config->DiscardNewPerSubject)
        quit(1, "the stream %s drops old jobs of a subject: it may have no limit of messages per subject", stream);
}

bool has_room(jsCtx *jets, const jsStreamConfig *config, uint64_t size, bool may_ask) {
    static uint64_t used = UINT64_MAX / 2; /* at most, if nobody else fills the stream */
    if (config->MaxBytes <= 0)
        return true;
    if (used + size > (uint64_t)config->MaxBytes && may_ask) {
        jsStreamInfo *info = NULL;
        used = js_GetStreamInfo(&info, jets, stream, NULL, NULL) == NATS_OK ? info->State.Bytes : used;
        jsStreamInfo_Destroy(info);
    }
    bool is_room = used + size <= (uint64_t)config->MaxBytes;
    used += is_room ? size : 0;
    return is_room;
}

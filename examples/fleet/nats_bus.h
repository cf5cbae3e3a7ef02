// A connection to NATS JetStream, which comes back by itself, as often as it is cut.
#ifndef NATS_BUS_H
#define NATS_BUS_H

#include "report.h"

#include <nats/nats.h>

#define BUS "NATS"
#define BUS_WORDS \
    TEXT_WORD("servers", "nats://127.0.0.1:4222", "nats://HOST:PORT,.. or tls://HOST:PORT,.."), \
    TEXT_WORD("stream", "TRACE", "JetStream's stream"), \
    TEXT_WORD("subject", "trace", "what its subjects begin with: SUBJECT.STREAM-ID.CPU"), \
    NUMBER_WORD("copies", "1", 1, 5, "nodes that keep a copy, if the stream is made here"), \
    NUMBER_WORD("keep-seconds", "3600", 0, A_BILLION, "how long it keeps messages, if it is made here; 0: for ever"), \
    TEXT_WORD("user", NULL, "a user's name, with --password-file"), \
    TEXT_WORD("password-file", NULL, "file of the user's password"), \
    TEXT_WORD("token-file", NULL, "file of a token"), \
    TEXT_WORD("creds", NULL, "file of credentials (a JWT and its seed)"), \
    TEXT_WORD("nkey", NULL, "a public nkey, with --seed-file"), \
    TEXT_WORD("seed-file", NULL, "file of the nkey's seed"), \
    FLAG_WORD("tls", "TLS, with the system's authorities unless --ca names others"), \
    TEXT_WORD("ca", NULL, "file of the authorities that servers' certificates are checked by"), \
    TEXT_WORD("cert", NULL, "file of this client's certificate, with --key"), \
    TEXT_WORD("key", NULL, "file of its key"), \
    TEXT_WORD("host-name", NULL, "the name in the servers' certificates, if it isn't that of --servers")

static inline void must_nats(natsStatus status, const char *call)
{
    if (status != NATS_OK)
        die(call, natsStatus_GetText(status));
}

// What the library says of the last call of this thread that failed.
static inline const char *nats_cause(natsStatus status)
{
    natsStatus last;
    const char *text = nats_GetLastError(&last);
    return text && *text ? text : natsStatus_GetText(status);
}

// The first line of a file of secrets.
static inline const char *secret_of(const char *word)
{
    static char secrets[2][1024];
    static size_t next;
    char *secret = secrets[next++ % 2];
    FILE *from = fopen(text_of(word), "r");
    if (!from)
        die(text_of(word), strerror(errno));
    if (!fgets(secret, sizeof secrets[0], from))
        die(text_of(word), "it has no line");
    (void)fclose(from);
    secret[strcspn(secret, "\r\n")] = 0;
    return secret;
}

static inline void on_fault(natsConnection *connection, natsSubscription *of, natsStatus status, void *closure)
{
    (void)connection;
    (void)of;
    (void)closure;
    report(BUS, nats_cause(status));
}

static inline void on_disconnect(natsConnection *connection, void *closure)
{
    const char *text = NULL;
    (void)closure;
    (void)natsConnection_GetLastError(connection, &text);
    if (!is_stopped)
        report(BUS " is left", text && *text ? text : "the connection is cut");
}

static inline void set_secrets(natsOptions *options)
{
    if (is_given("user"))
        must_nats(natsOptions_SetUserInfo(options, text_of("user"), secret_of("password-file")), "--user");
    if (is_given("token-file"))
        must_nats(natsOptions_SetToken(options, secret_of("token-file")), "--token-file");
    if (is_given("creds"))
        must_nats(natsOptions_SetUserCredentialsFromFiles(options, text_of("creds"), NULL), "--creds");
    if (is_given("nkey"))
        must_nats(natsOptions_SetNKeyFromSeed(options, text_of("nkey"), text_of("seed-file")), "--nkey");
    if (!(is_given("tls") || is_given("ca") || is_given("cert")))
        return;
    must_nats(natsOptions_SetSecure(options, true), "--tls");
    if (is_given("ca"))
        must_nats(natsOptions_LoadCATrustedCertificates(options, text_of("ca")), text_of("ca"));
    if (is_given("cert"))
        must_nats(natsOptions_LoadCertificatesChain(options, text_of("cert"), text_of("key")), text_of("cert"));
    if (is_given("host-name"))
        must_nats(natsOptions_SetExpectedHostname(options, text_of("host-name")), "--host-name");
}

// Words that belong together are there together.
static inline void check_bus_words(void)
{
    static const char *const pairs[][2] = {{"user", "password-file"}, {"nkey", "seed-file"}, {"cert", "key"}};
    for (size_t k = 0; k < sizeof pairs / sizeof *pairs; k++)
        if (is_given(pairs[k][0]) != is_given(pairs[k][1]))
            refuse_words(pairs[k][is_given(pairs[k][0])], "it is wanted with the word that is given");
}

static inline natsOptions *bus_options(void)
{
    enum { MOST_SERVERS = 16 };
    char text[4096];
    const char *servers[MOST_SERVERS], *given = text_of("servers");
    int count = 0;
    natsOptions *options;
    if (snprintf(text, sizeof text, "%s", given) >= (int)sizeof text)
        refuse_words("--servers", "it is too long");
    for (char *left, *at = strtok_r(text, ",", &left); at; at = strtok_r(NULL, ",", &left)) {
        if (count == MOST_SERVERS)
            refuse_words("--servers", "there are more than 16");
        servers[count++] = at;
    }
    must_nats(natsOptions_Create(&options), "natsOptions_Create");
    natsStatus status = natsOptions_SetServers(options, servers, count);
    if (status != NATS_OK)
        refuse_words(given, natsStatus_GetText(status));
    natsOptions_SetMaxReconnect(options, -1);
    natsOptions_SetReconnectWait(options, 100);
    natsOptions_SetReconnectJitter(options, 50, 50);
    // A server that says nothing for three seconds is left; all are tried in four.
    natsOptions_SetTimeout(options, count > 4 ? 4000 / count : 1000);
    natsOptions_SetPingInterval(options, 1000);
    natsOptions_SetMaxPingsOut(options, 2);
    natsOptions_SetWriteDeadline(options, 1000);
    natsOptions_SetIgnoreDiscoveredServers(options, true);
    natsOptions_SetErrorHandler(options, on_fault, NULL);
    natsOptions_SetDisconnectedCB(options, on_disconnect, NULL);
    set_secrets(options);
    return options;
}

// The connection, or null, with a report, if no server takes it yet. (The library would try on by itself,
// natsOptions_SetRetryOnFailedConnect; but in libnats 3.4.1 it may give up for good then, if a server closes a
// connection as soon as it has accepted it.)
static inline natsConnection *connect_to_bus(void)
{
    natsOptions *options = bus_options();
    natsConnection *connection = NULL;
    natsStatus status = natsConnection_Connect(&connection, options);
    if (status == NATS_INVALID_ARG)
        refuse_words("--servers", nats_cause(status));
    if (status != NATS_OK)
        report(text_of("servers"), nats_cause(status));
    natsOptions_Destroy(options);
    return connection;
}

static inline jsCtx *jetstream(natsConnection *connection, jsPubAckHandler on_answer)
{
    jsOptions options;
    jsCtx *js;
    jsOptions_Init(&options);
    options.Wait = 2000;
    options.PublishAsync.AckHandler = on_answer;
    must_nats(natsConnection_JetStream(&js, connection, &options), "natsConnection_JetStream");
    return js;
}

// Says each few seconds that there is no server. (The library says once that it lost one.)
static inline void report_away(void)
{
    static double next;
    if (seconds_now() < next || is_stopped)
        return;
    next = seconds_now() + 5;
    report(BUS " is away", text_of("servers"));
}

static inline bool is_connected(natsConnection *connection)
{
    if (natsConnection_IsClosed(connection)) {
        const char *text = NULL;
        (void)natsConnection_GetLastError(connection, &text);
        die("NATS closed the connection for good", text && *text ? text : "it doesn't say why");
    }
    bool is_there = natsConnection_Status(connection) == NATS_CONN_STATUS_CONNECTED;
    if (!is_there)
        report_away();
    return is_there;
}
#endif

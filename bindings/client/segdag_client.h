/* A client of segdagd in C: lines to the socket of a daemon, and their replies. Two files without a library; docs/DAEMON.md has the lines.

       segdag_client *client;
       segdag_client_reply reply;
       if (segdag_client_open("/run/segdag.socket", "project/log", 5000, &client) == SEGDAG_CLIENT_OK
           && segdag_client_ask(client, "query heads(all)", 16, &reply) == SEGDAG_CLIENT_OK && reply.is_ok)
           fwrite(reply.text, 1, reply.text_size, stdout);
       segdag_client_close(client);

   One thread at a time uses a client. */
#ifndef SEGDAG_CLIENT_H
#define SEGDAG_CLIENT_H
#include <stdbool.h>
#include <stddef.h>
#ifdef __cplusplus
extern "C" {
#endif

typedef struct segdag_client segdag_client;

/* How a call ended. Behind all but the first three the client is only good for being closed. */
typedef enum segdag_client_end {
    SEGDAG_CLIENT_OK,
    SEGDAG_CLIENT_ARGUMENT, /* a text that is no line: it is empty, a comment, or has a line feed */
    SEGDAG_CLIENT_REFUSED,  /* of an opening: the daemon lets nobody use this log; the reply to `use` is `err use ..` */
    SEGDAG_CLIENT_MEMORY,
    SEGDAG_CLIENT_LOST,     /* nobody listens, or the connection is gone; errno says what the system said, or 0 */
    SEGDAG_CLIENT_SILENT,   /* nothing came or went for as long as there is patience */
    SEGDAG_CLIENT_ENDED     /* the daemon has let go of this client: segdag_client_ended has the number of its `err ended S` */
} segdag_client_end;

/* What is answered to a line. The bytes are the client's, until its next call. */
typedef struct segdag_client_reply {
    bool is_ok;        /* whether the last line begins with `ok` */
    const char *text;  /* the lines in front of the last one, with their ends; NULL where there are none */
    size_t text_size;
    const char *last;  /* the last line, ended by a byte 0 in place of its end */
    size_t last_size;
} segdag_client_reply;

/* Connects to the socket at this path, and uses the log of this name; NULL where the daemon serves one log. Nothing has to come for `patience`
   milliseconds at most; -1: for ever. *client is NULL unless it ends with SEGDAG_CLIENT_OK. */
segdag_client_end segdag_client_open(const char *path, const char *log, int patience, segdag_client **client);

/* Sends a line, without its end, and takes its reply, and those of lines that were put and not taken so far before it. */
segdag_client_end segdag_client_ask(segdag_client *client, const char *line, size_t size, segdag_client_reply *reply);

/* Puts a line behind others whose replies weren't taken, so that nobody waits for each. Nothing is sent so far. */
segdag_client_end segdag_client_put(segdag_client *client, const char *line, size_t size);

/* Takes the reply to the first line whose reply wasn't taken; SEGDAG_CLIENT_ARGUMENT where there is none. */
segdag_client_end segdag_client_take(segdag_client *client, segdag_client_reply *reply);

/* The number of the daemon's last line, behind SEGDAG_CLIENT_ENDED. */
int segdag_client_ended(const segdag_client *client);

/* NULL is let pass. What was pending in the session is gone. */
void segdag_client_close(segdag_client *client);

#ifdef __cplusplus
}
#endif
#endif

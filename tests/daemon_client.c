/* Lines of standard input by the client in C, and their replies: daemon_client SOCKET LOG AHEAD PATIENCE. LOG is - for a daemon of one log; so
   many lines are sent ahead of the replies that are taken. Its status is how the client ended, 100 and more where the daemon told it so. */
#define _GNU_SOURCE
#include "../bindings/client/segdag_client.h"
#include <stdio.h>
#include <stdlib.h>
#include <string.h>

static segdag_client_end tell(segdag_client *client) {
    segdag_client_reply reply;
    segdag_client_end end = segdag_client_take(client, &reply);
    if (end != SEGDAG_CLIENT_OK)
        return end;
    if (reply.is_ok == (*reply.last != 'o') || strlen(reply.last) != reply.last_size || !reply.text != !reply.text_size)
        exit(99);
    fwrite(reply.text ? reply.text : "", 1, reply.text_size, stdout);
    puts(reply.last);
    fflush(stdout);
    return SEGDAG_CLIENT_OK;
}

static segdag_client_end talk(segdag_client *client, size_t ahead) {
    segdag_client_reply reply;
    segdag_client_end end = SEGDAG_CLIENT_OK;
    char *line = NULL;
    size_t room = 0, waiting = 0;
    if (segdag_client_put(client, "", 0) != SEGDAG_CLIENT_ARGUMENT || segdag_client_put(client, "a\nb", 3) != SEGDAG_CLIENT_ARGUMENT
        || segdag_client_take(client, &reply) != SEGDAG_CLIENT_ARGUMENT || segdag_client_ask(client, "# note", 6, &reply) != SEGDAG_CLIENT_ARGUMENT)
        exit(98);
    for (ssize_t size; end == SEGDAG_CLIENT_OK && (size = getline(&line, &room, stdin)) > 0;) {
        end = segdag_client_put(client, line, (size_t)size - 1);
        for (waiting++; end == SEGDAG_CLIENT_OK && waiting > ahead; waiting--)
            end = tell(client);
    }
    for (; end == SEGDAG_CLIENT_OK && waiting > 0; waiting--)
        end = tell(client);
    free(line);
    return end;
}

int main(int count, char **words) {
    segdag_client *client;
    if (count != 5)
        return 97;
    segdag_client_end end = segdag_client_open(words[1], strcmp(words[2], "-") ? words[2] : NULL, atoi(words[4]), &client);
    if (end == SEGDAG_CLIENT_OK)
        end = talk(client, (size_t)atoi(words[3]));
    int status = end == SEGDAG_CLIENT_ENDED && client ? 100 + segdag_client_ended(client) : (int)end;
    segdag_client_close(client);
    return status;
}

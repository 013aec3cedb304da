/* Follows a recording of a served archive: docs/PROTOCOL.md, "Following a recording".
   Usage: cc -o follow follow.c && ./follow HOST PORT RECORDING POSITION LENGTH > frames
   Standard output gets each frame as it comes, standard error the server's answer, and at the end the position to go on from.
   Status 0: stopped, or the bound is reached. 1: refused, or ended early. 3: the server can't read on. A little-endian machine. */
#include <inttypes.h>
#include <netdb.h>
#include <stdio.h>
#include <string.h>
#include <sys/socket.h>
#include <sys/time.h>

enum { HEADER_LENGTH = 32, LONGEST = 65536, PAD = 0, END_OF_STREAM = 0x20, FAULT = 0x01, SILENCE = 10 /* seconds */ };

static int connected(const char *host, const char *port) {
    struct addrinfo wanted = {.ai_socktype = SOCK_STREAM}, *found;
    struct timeval silence = {.tv_sec = SILENCE}; /* the server sends a heartbeat every 100 milliseconds */
    if (getaddrinfo(host, port, &wanted, &found))
        return -1;
    int server = socket(found->ai_family, found->ai_socktype, found->ai_protocol);
    setsockopt(server, SOL_SOCKET, SO_RCVTIMEO, &silence, sizeof silence);
    return server < 0 || connect(server, found->ai_addr, found->ai_addrlen) ? -1 : server;
}

/* Hands on the frames that come; the status. */
static int follow(FILE *stream, int64_t *position) {
    static unsigned char frame[LONGEST];
    while (fread(frame, 1, HEADER_LENGTH, stream) == HEADER_LENGTH) {
        int32_t length;
        uint16_t kind;
        memcpy(&length, frame, sizeof length);
        memcpy(&kind, frame + 6, sizeof kind);
        if (length == 0 && frame[5] & END_OF_STREAM)
            return frame[5] & FAULT ? 3 : 0;
        if (length == 0)
            continue;
        int32_t aligned = (length + 31) & -32; /* how many bytes of the stream the frame covers */
        size_t rest = kind == PAD ? 0 : (size_t)aligned - HEADER_LENGTH;
        if (rest > LONGEST - HEADER_LENGTH || fread(frame + HEADER_LENGTH, 1, rest, stream) != rest)
            return 1;
        fwrite(frame, 1, HEADER_LENGTH + rest, stdout);
        fflush(stdout);
        *position += aligned;
    }
    return 1;
}

int main(int count, char **words) {
    char answer[128] = "";
    int64_t position;
    int server = count == 6 ? connected(words[1], words[2]) : -1;
    if (server < 0 || dprintf(server, "follow %s %s %s\n", words[3], words[4], words[5]) < 0)
        return 1;
    FILE *stream = fdopen(server, "r");
    if (!stream || !fgets(answer, sizeof answer, stream) || fputs(answer, stderr) < 0 || sscanf(answer, "following %" SCNd64, &position) != 1)
        return 1;
    int status = follow(stream, &position);
    fprintf(stderr, "go on from %" PRId64 "\n", position);
    return status;
}

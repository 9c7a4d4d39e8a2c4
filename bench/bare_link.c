/* Two ends of a line that make the turns of characters of bench/link, and nothing else.

       bare_link PORT EVENTS GAP    listens, and sends a frame of 213 characters for each event, one each GAP ms
       bare_link PORT EVENTS        calls, and answers each by a frame of 16 characters

   Before a frame ENQ is sent and EOT awaited, behind it comes ACK. Each character is read by a call of its own, with a
   time limit. A character that isn't the one to come ends the program with status 1. */
#include <arpa/inet.h>
#include <netinet/tcp.h>
#include <poll.h>
#include <stdlib.h>
#include <sys/socket.h>
#include <time.h>
#include <unistd.h>

enum { EOT = 4, ENQ = 5, ACK = 6, REPORT = 213, REPLY = 16, NONE = -1, LIMIT = 10000 };

static int line;

/* The next character, or NONE where none comes within so many milliseconds. */
static int character(int limit) {
    struct pollfd wait = {.fd = line, .events = POLLIN};
    unsigned char one;
    if (poll(&wait, 1, limit) == 0) return NONE;
    if (read(line, &one, 1) != 1) exit(1);
    return one;
}

static void takes(int wanted) {
    if (character(LIMIT) != wanted) exit(1);
}

static void sends(const unsigned char *characters, size_t count) {
    if (write(line, characters, count) != (ssize_t)count) exit(1);
}

static void sends_one(unsigned char character) { sends(&character, 1); }

static void sends_frame(size_t count) {
    unsigned char frame[REPORT] = {(unsigned char)(count - 3)};
    sends(frame, count);
}

static void takes_frame(int count) {
    takes(count - 3);
    for (int left = count - 1; left > 0; left--)
        if (character(LIMIT) == NONE) exit(1);
}

/* How many milliseconds the clock shows. */
static long moment(void) {
    struct timespec now;
    clock_gettime(CLOCK_MONOTONIC, &now);
    return now.tv_sec * 1000 + now.tv_nsec / 1000000;
}

static void tool(int events, int gap) {
    long start = moment();
    for (int event = 1; event <= events; event++) {
        long left = start + (long)event * gap - moment();
        if (left > 0 && character((int)left) != NONE) exit(1);
        sends_one(ENQ);
        takes(EOT);
        sends_frame(REPORT);
        takes(ACK);
        takes(ENQ);
        sends_one(EOT);
        takes_frame(REPLY);
        sends_one(ACK);
    }
}

static void host(int events) {
    for (int event = 1; event <= events; event++) {
        takes(ENQ);
        sends_one(EOT);
        takes_frame(REPORT);
        sends((const unsigned char[]){ACK, ENQ}, 2);
        takes(EOT);
        sends_frame(REPLY);
        takes(ACK);
    }
}

int main(int count, char **words) {
    int yes = 1, door = socket(AF_INET, SOCK_STREAM, 0);
    if (count < 3) return 64;
    struct sockaddr_in place = {.sin_family = AF_INET, .sin_port = htons((unsigned short)atoi(words[1]))};
    place.sin_addr.s_addr = htonl(INADDR_LOOPBACK);
    line = door;
    if (count > 3) {
        if (bind(door, (struct sockaddr *)&place, sizeof place) != 0 || listen(door, 1) != 0) return 1;
        line = accept(door, NULL, NULL);
    } else if (connect(door, (struct sockaddr *)&place, sizeof place) != 0)
        return 1;
    setsockopt(line, IPPROTO_TCP, TCP_NODELAY, &yes, sizeof yes);
    if (count > 3)
        tool(atoi(words[2]), atoi(words[3]));
    else
        host(atoi(words[2]));
    return 0;
}

/* Refuses memory to a program that is started with it: the call of malloc, calloc or realloc that has the number of the
   variable REFUSED_CALL, of those from the program's start on. Where REFUSED_LATER is set too, each later one is refused
   as well. Where it refuses, it leaves an empty file `refused` in the folder that the program runs in.

       cc -O2 -shared -fPIC -o refuse_memory.so refuse_memory.c
       REFUSED_CALL=7 LD_PRELOAD=./refuse_memory.so PROGRAM

   It stands in front of glibc's own calls, and nothing else of the program is changed. */
#include <errno.h>
#include <fcntl.h>
#include <stdlib.h>
#include <unistd.h>

extern void *__libc_malloc(size_t size);
extern void *__libc_calloc(size_t count, size_t size);
extern void *__libc_realloc(void *block, size_t size);

static long refused, calls;
static int later;

/* What the loader takes before isn't counted. */
__attribute__((constructor)) static void begin(void) {
    const char *call = getenv("REFUSED_CALL");
    later = getenv("REFUSED_LATER") != NULL;
    calls = 0;
    refused = call ? atol(call) : 0;
}

static int is_refused(void) {
    if (refused == 0 || ++calls < refused || (calls > refused && !later)) return 0;
    if (calls == refused) {
        int told = open("refused", O_CREAT | O_WRONLY | O_CLOEXEC, 0600);
        if (told >= 0) close(told);
    }
    errno = ENOMEM;
    return 1;
}

void *malloc(size_t size) { return is_refused() ? NULL : __libc_malloc(size); }
void *calloc(size_t count, size_t size) { return is_refused() ? NULL : __libc_calloc(count, size); }
void *realloc(void *block, size_t size) { return is_refused() ? NULL : __libc_realloc(block, size); }

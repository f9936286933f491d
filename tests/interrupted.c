/*
 * For Windows, which this library reaches under Wine: makes the random calls of tests/calls.c while another thread
 * stops and resumes them as often as it can, so that what a system does with memory below the stack pointer of an
 * interrupted call would be seen in the digests. Prints what calls.c prints, and the number of stops.
 * usage: interrupted COUNT SEED
 */
#include <windows.h>

#define main calls_main
#include "calls.c"
#undef main

static volatile LONG ended;
static unsigned long long stops;

static DWORD WINAPI interrupt(LPVOID caller)
{
    CONTEXT context;

    memset(&context, 0, sizeof context);
    context.ContextFlags = CONTEXT_FULL;
    while (!ended) {
        if (SuspendThread((HANDLE)caller) != (DWORD)-1) {
            stops += GetThreadContext((HANDLE)caller, &context) != 0;
            ResumeThread((HANDLE)caller);
        }
    }
    return 0;
}

int main(int count, char **words)
{
    HANDLE caller, thread;
    int status;

    if (!DuplicateHandle(GetCurrentProcess(), GetCurrentThread(), GetCurrentProcess(), &caller, 0, FALSE,
                         DUPLICATE_SAME_ACCESS)
        || (thread = CreateThread(NULL, 0, interrupt, caller, 0, NULL)) == NULL) {
        printf("interrupted: there is no second thread\n");
        return 1;
    }
    status = calls_main(count, words);
    ended = 1;
    WaitForSingleObject(thread, INFINITE);
    printf("interrupted: %llu stops\n", stops);
    return status != 0 || stops == 0;
}

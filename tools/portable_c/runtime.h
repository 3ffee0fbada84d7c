/* What the program asks of the machine, and where it starts. A failed call is not repeated here: the program decides. */
#include <errno.h>
#if defined(_WIN32)
#include <fcntl.h>
#include <io.h>
#else
#include <signal.h>
#include <unistd.h>
#endif

/* The most bytes of one call. A program that is told of fewer bytes than it asked for calls again. */
#define MOST_BYTES 0x40000000u
#define AT_MOST(count) ((count) < MOST_BYTES ? (unsigned)(count) : MOST_BYTES)

/* The number of bytes that were read or written, or -1. */
static uint64_t host_read(uint32_t file, bytes to, uint64_t count)
{
#if defined(_WIN32)
    return (uint64_t)(int64_t)_read((int)file, to, AT_MOST(count));
#else
    return (uint64_t)(int64_t)read((int)file, to, AT_MOST(count));
#endif
}

static uint64_t host_write(uint32_t file, bytes from, uint64_t count)
{
#if defined(_WIN32)
    return (uint64_t)(int64_t)_write((int)file, from, AT_MOST(count));
#else
    return (uint64_t)(int64_t)write((int)file, from, AT_MOST(count));
#endif
}

/* Why the last call failed. */
static uint32_t host_error(void)
{
    return (uint32_t)errno;
}

/* The program itself, which stands below; its result is the exit status. */
static uint32_t program(void);

int main(void)
{
#if defined(_WIN32)
    /* Windows would change the bytes of line ends. */
    for (int file = 0; file < 3; file++)
        _setmode(file, _O_BINARY);
#else
    /* A write to a pipe without a reader has to fail, and not to end the program. */
    signal(SIGPIPE, SIG_IGN);
#endif
    return (int)program();
}

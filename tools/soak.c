/* What `tools/soak` can't do in a shell.
 *
 *   soak octets SEED NUMBER                       writes so many random octets
 *   soak channel SEED OCTETS LOST NOISE FADES     passes slots of so many octets through a channel: of 65,536 pulses
 *                                                 LOST are lost, of 65,536 slots NOISE have photons of noise, and FADES
 *                                                 times in 16,777,216 slots a stretch goes dark
 *   soak strangers SIZE SENT GOT                  writes how many pieces of that size in the file GOT aren't in SENT
 *   soak run SECONDS FILE PROGRAM WORD..          runs the program for at most so many seconds of the processor, and
 *                                                 ten times as long in all. FILE gets its peak memory in KiB. With
 *                                                 SOAK_PRELOAD the program is loaded behind that library
 */
#define _GNU_SOURCE
#include <signal.h>
#include <stdio.h>
#include <stdlib.h>
#include <string.h>
#include <sys/resource.h>
#include <sys/wait.h>
#include <unistd.h>

/* The most slots of a fade. */
#define FADE_MOST 40000

static unsigned long long state;

/* The next word of a 64 bit generator, xorshift with a multiplication. */
static unsigned next(void)
{
    state ^= state >> 12;
    state ^= state << 25;
    state ^= state >> 27;
    return (unsigned)(state * 2685821657736338717ULL >> 32);
}

static void seed(const char *text)
{
    state = strtoull(text, NULL, 10) * 2 + 1;
    for (int i = 0; i < 16; i++)
        next();
}

static int octets(char **words)
{
    seed(words[0]);
    for (unsigned long left = strtoul(words[1], NULL, 10); left > 0; left--)
        putchar(next() >> 24);
    return 0;
}

static int channel(char **words)
{
    int width = atoi(words[1]), octet;
    unsigned lost = atoi(words[2]), noise = atoi(words[3]), fades = atoi(words[4]);
    unsigned long faded = 0;

    seed(words[0]);
    while ((octet = getchar()) != EOF) {
        unsigned count = octet, chance = next();
        if (width == 2)
            count = count << 8 | (unsigned)getchar();
        if (count > 0 && (chance & 65535) < lost)
            count = 0;
        if (chance >> 16 < noise) {
            unsigned more = next();
            count += more % 64 == 0 ? more >> 16 : 1 + more % 3;
        }
        if (faded == 0 && (next() & 0xffffff) < fades)
            faded = 1 + next() % FADE_MOST;
        if (faded > 0) {
            faded--;
            count = 0;
        }
        if (width == 2) {
            count = count > 65535 ? 65535 : count;
            putchar((int)(count >> 8));
        }
        putchar((int)(width == 1 && count > 255 ? 255 : count & 255));
    }
    return 0;
}

static char *whole(const char *name, size_t *size)
{
    FILE *file = fopen(name, "rb");
    char *text;

    if (!file || fseek(file, 0, SEEK_END) != 0)
        exit(125);
    *size = (size_t)ftell(file);
    rewind(file);
    text = malloc(*size + 1);
    if (!text || fread(text, 1, *size, file) != *size)
        exit(125);
    fclose(file);
    return text;
}

static int strangers(char **words)
{
    size_t size = strtoul(words[0], NULL, 10), sent_size, got_size, from = 0;
    unsigned long strangers = 0;
    char *sent = whole(words[1], &sent_size), *got = whole(words[2], &got_size);

    /* Frames come in the order in which they were sent, so the search goes on behind the last that was found. */
    for (size_t at = 0; at + size <= got_size; at += size) {
        size_t place = from;
        while (place + size <= sent_size && memcmp(sent + place, got + at, size) != 0)
            place += size;
        if (place + size > sent_size)
            strangers++;
        else
            from = place + size;
    }
    printf("%lu\n", strangers + (got_size % size != 0));
    return 0;
}

static pid_t child;

static void stop(int number)
{
    (void)number;
    kill(child, SIGKILL);
}

static int run(char **words)
{
    rlim_t seconds = strtoul(words[0], NULL, 10);
    struct rlimit limit = {seconds, seconds};
    struct rusage usage;
    int status;
    FILE *out;

    child = fork();
    if (child == 0) {
        const char *library = getenv("SOAK_PRELOAD");
        if (library && *library)
            setenv("LD_PRELOAD", library, 1);
        setrlimit(RLIMIT_CPU, &limit);
        execv(words[2], words + 2);
        _exit(125);
    }
    signal(SIGALRM, stop);
    alarm(10 * (unsigned)seconds);
    if (child < 0 || wait4(child, &status, 0, &usage) != child || !(out = fopen(words[1], "w")))
        return 125;
    fprintf(out, "%ld\n", usage.ru_maxrss);
    fclose(out);
    return WIFEXITED(status) ? WEXITSTATUS(status) : 128 + WTERMSIG(status);
}

int main(int count, char **words)
{
    if (count == 4 && strcmp(words[1], "octets") == 0)
        return octets(words + 2);
    if (count == 7 && strcmp(words[1], "channel") == 0)
        return channel(words + 2);
    if (count == 5 && strcmp(words[1], "strangers") == 0)
        return strangers(words + 2);
    if (count > 4 && strcmp(words[1], "run") == 0)
        return run(words + 2);
    return 125;
}

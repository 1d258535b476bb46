/* A program that closes every descriptor it did not open, opens files of its own at those numbers, and becomes a
 * daemon: its calls work, and its files have what it wrote and no more. */
#include "say.h"

#include <fcntl.h>
#include <sys/stat.h>

enum { FILES = 40, ROUNDS = 3, LAST = 1023, DUPLICATES = 200 };

static int set;
static char folder[] = "/tmp/vairolent-files-XXXXXX";

static int open_file(int number)
{
    char name[64];
    snprintf(name, sizeof name, "%s/%d", folder, number);
    return must(open(name, O_RDWR | O_CREAT | O_APPEND, 0600));
}

static int line(char *text, size_t size, int number, int round)
{
    return snprintf(text, size, "file %d round %d\n", number, round);
}

static void close_all(void)
{
    for (int number = 3; number <= LAST; number++)
        close(number);
}

/* Opens the files, writes to each, and operates in between. */
static void write_files(int round)
{
    int files[FILES];
    char text[64];
    for (int i = 0; i < FILES; i++)
        files[i] = open_file(i);
    for (int i = 0; i < FILES; i++) {
        int length = line(text, sizeof text, i, round);
        must(operate(set, 0, 1, SEM_UNDO));
        must(write(files[i], text, (size_t)length) == length ? 0 : -1);
        must(operate(set, 0, -1, SEM_UNDO));
    }
}

/* Every number is one and the same file, whatever was there before. */
static void write_over_all(void)
{
    int file = open_file(0);
    for (int number = 3; number < DUPLICATES; number++)
        must(dup2(file, number));
    say("with duplicates", operate(set, 1, 3, 0));
    say("value", get_value(set, 1));
    must(set_value(set, 1, 0));
}

static int is_as_written(int number)
{
    char wanted[256] = "", found[512] = "", text[64];
    for (int round = 0; round < ROUNDS; round++) {
        line(text, sizeof text, number, round);
        strcat(wanted, text);
    }
    int file = open_file(number);
    must((int)read(file, found, sizeof found - 1));
    close(file);
    return strcmp(wanted, found) == 0;
}

static void files(void)
{
    int whole = 0;
    must(mkdtemp(folder) ? 0 : -1);
    for (int round = 0; round < ROUNDS; round++) {
        close_all();
        write_files(round);
        say("value", get_value(set, 0));
    }
    write_over_all();
    must(close_range(3, ~0U, 0));
    for (int i = 0; i < FILES; i++)
        whole += is_as_written(i);
    say("files as written", whole);
}

static void daemon_body(void)
{
    alarm(TIME_ALLOWED);
    must(chdir("/"));
    umask(0);
    must(close_range(0, ~0U, 0));
    for (int number = 0; number < 3; number++)
        must(open("/dev/null", O_RDWR));
    int log = open_file(FILES);
    must(operate(set, 0, -2, SEM_UNDO));
    must(operate(set, 1, 1, 0));
    must(operate(set, 2, -1, 0));
    must(write(log, "served\n", 7) == 7 ? 0 : -1);
    exit(5);
}

static int daemonize(int unused)
{
    must(setsid());
    if (must(fork()) == 0)
        daemon_body();
    return unused;
}

/* This process waits for the daemon as init would. */
static void daemon_of_its_own(void)
{
    char found[16] = "";
    must(prctl(PR_SET_CHILD_SUBREAPER, 1));
    must(set_value(set, 0, 5));
    reap("the first fork", spawn(daemonize, 0));
    say("the daemon is there", operate(set, 1, -1, 0));
    say("value", get_value(set, 0));
    must(operate(set, 2, 1, 0));
    reap("the daemon", -1);
    say("value", get_value(set, 0));
    must((int)read(open_file(FILES), found, sizeof found - 1));
    printf("its log: %s", found);
}

int main(void)
{
    begin();
    set = make(3);
    files();
    daemon_of_its_own();
    close_all();
    for (int i = 0; i <= FILES; i++) {
        char name[64];
        snprintf(name, sizeof name, "%s/%d", folder, i);
        must(unlink(name));
    }
    must(rmdir(folder));
    remove_set(set);
}

/* Adjustments stay over exec, and the image after it uses the set by its identifier; calls of other threads that
 * slept are gone. Without an argument it is the parent; else the image, whose arguments say what it does on which
 * set. */
#include "say.h"

static int set;

static int become(const char *image)
{
    char number[16];
    snprintf(number, sizeof number, "%d", set);
    execl("/proc/self/exe", "exec", image, number, (char *)NULL);
    return 1;
}

/* The image of `plain`: what was taken before exec is held, and undone with what it takes itself. */
static void held(void)
{
    say("in the image, value", get_value(set, 0));
    say("it takes with undo", operate(set, 0, -1, SEM_UNDO));
    say("it takes without", operate(set, 0, -1, 0));
    say("value", get_value(set, 0));
}

static int plain(int unused)
{
    (void)unused;
    say("taken before exec", operate(set, 0, -2, SEM_UNDO));
    say("an exec that fails", execl("/nowhere/at/all", "exec", (char *)NULL));
    say("value", get_value(set, 0));
    return become("held");
}

/* The image takes with undo, tells so by semaphore 1, and waits there for its end. */
static void stays(void)
{
    say("the image takes", operate(set, 0, -1, SEM_UNDO));
    must(operate(set, 1, 1, 0));
    pause();
}

static int twice(int unused)
{
    (void)unused;
    must(operate(set, 0, -2, SEM_UNDO));
    return become("again");
}

static void *sleeps(void *unused)
{
    say("never said", operate(set, 0, -100, SEM_UNDO));
    return unused;
}

static void *executes(void *unused)
{
    until_increase(set, 0, 1);
    become("alone");
    return unused;
}

/* The image of the next two: nobody sleeps any more, and what is given stays. */
static void alone(void)
{
    say("asleep in the image", semctl(set, 0, GETNCNT));
    must(operate(set, 0, 100, 0));
    say("value", get_value(set, 0));
    say("the image takes", operate(set, 0, -100, SEM_UNDO));
}

static int another_sleeps(int unused)
{
    (void)unused;
    must(operate(set, 0, -1, SEM_UNDO));
    start(sleeps, NULL);
    until_increase(set, 0, 1);
    return become("alone");
}

/* The thread that executes takes over the process; the first thread's call is gone. */
static int first_sleeps(int unused)
{
    (void)unused;
    must(operate(set, 0, -1, SEM_UNDO));
    start(executes, NULL);
    sleeps(NULL);
    return 1;
}

static void run(const char *what, int (*body)(int))
{
    must(set_value(set, 0, 5));
    reap(what, spawn(body, 0));
    say("value at the end", get_value(set, 0));
}

static void image(const char *name)
{
    if (strcmp(name, "held") == 0)
        held();
    else if (strcmp(name, "again") == 0)
        become("stays");
    else if (strcmp(name, "stays") == 0)
        stays();
    else if (strcmp(name, "alone") == 0)
        alone();
}

int main(int count, char **words)
{
    begin();
    if (count > 2) {
        set = atoi(words[2]);
        image(words[1]);
        return 0;
    }
    set = make(2);
    run("the image", plain);
    must(set_value(set, 0, 5));
    pid_t child = spawn(twice, 0);
    say("two images later", operate(set, 1, -1, 0));
    say("value", get_value(set, 0));
    end("the image", child);
    say("value at the end", get_value(set, 0));
    run("while another sleeps", another_sleeps);
    run("while the first sleeps", first_sleeps);
    remove_set(set);
}

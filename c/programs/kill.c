/* What a killed process held is given back before its parent's wait is over, and wakes sleepers. */
#include "say.h"

static int set, other;

/* Takes or gives with undo, and stays. */
static int holder(int amount)
{
    say("the holder", operate(set, 0, amount, SEM_UNDO));
    tell('h');
    return pause();
}

static pid_t hold(int amount)
{
    pid_t child = spawn(holder, amount);
    hear();
    return child;
}

static int holder_of_many(int unused)
{
    struct sembuf here[] = {{0, -3, SEM_UNDO}, {1, 2, SEM_UNDO}, {2, 1, 0}, {0, 1, SEM_UNDO}};
    (void)unused;
    say("an array", semop(set, here, 4));
    say("of another set", operate(other, 1, -4, SEM_UNDO));
    tell('h');
    return pause();
}

static void values(const char *what)
{
    printf("%s: %d %d %d, %d %d\n", what, get_value(set, 0), get_value(set, 1), get_value(set, 2), get_value(other, 0),
           get_value(other, 1));
}

static void several(void)
{
    must(set_value(set, 0, 5));
    must(set_value(other, 1, 4));
    pid_t child = spawn(holder_of_many, 0);
    hear();
    values("held");
    end("it", child);
    values("given back");
}

static int sleeper_that_holds(int unused)
{
    (void)unused;
    must(operate(set, 0, -2, SEM_UNDO));
    return say("never said", operate(set, 1, -1, SEM_UNDO));
}

static void asleep(void)
{
    pid_t child = spawn(sleeper_that_holds, 0);
    until_increase(set, 1, 1);
    values("asleep");
    end("it", child);
    say("asleep after the kill", semctl(set, 1, GETNCNT));
    must(operate(set, 1, 1, 0));
    values("given back, and nobody takes");
    must(set_value(set, 1, 0));
}

static int sleeper(int amount)
{
    return code(operate(set, 0, amount, 0));
}

/* A killed holder lets the next one in. */
static void woken(void)
{
    must(set_value(set, 0, 1));
    pid_t child = hold(-1);
    pid_t next = spawn(sleeper, -1);
    until_increase(set, 0, 1);
    end("the holder", child);
    reap_code("the sleeper", next);
    say("value", get_value(set, 0));
    child = hold(3);
    next = spawn(sleeper, 0);
    until_zero(set, 0, 1);
    end("the holder", child);
    reap_code("who waited for zero", next);
}

/* The value stays in its range. */
static void cut(void)
{
    pid_t child = hold(3);
    must(operate(set, 0, -2, 0));
    end("who gave three", child);
    say("not below zero", get_value(set, 0));
    must(operate(set, 0, 10, 0));
    child = hold(-10);
    must(operate(set, 0, 32765, 0));
    end("who took ten", child);
    say("not above the greatest", get_value(set, 0));
}

static int takes_without(int unused)
{
    (void)unused;
    must(operate(set, 0, -2, 0));
    tell('t');
    return pause();
}

/* Without undo, and after SETVAL, SETALL and a removal, nothing is given back. */
static void forgotten(void)
{
    unsigned short all[] = {7, 8, 9};
    must(set_value(set, 0, 5));
    pid_t child = spawn(takes_without, 0);
    hear();
    end("without undo", child);
    say("value", get_value(set, 0));
    child = hold(-3);
    must(set_value(set, 0, 1));
    end("after SETVAL", child);
    say("value", get_value(set, 0));
    child = hold(-1);
    must(set_all(set, all));
    end("after SETALL", child);
    values("values");
    child = hold(-1);
    remove_set(set);
    set = make(3);
    end("after a removal", child);
    values("values");
}

int main(void)
{
    begin();
    set = make(3);
    other = make(2);
    several();
    asleep();
    woken();
    cut();
    forgotten();
    remove_set(set);
    remove_set(other);
}

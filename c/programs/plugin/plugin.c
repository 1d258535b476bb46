/* Loaded by deepbind.c: its calls are bound to the C library ahead of all that was preloaded. */
#include "../say.h"

int plugin_sleep(int set, long milliseconds);
int plugin_operate(int set, int number, int amount, int flags);
int plugin_control(int set, int number, int command, int value);
int plugin_get(int key, int count, int flags);

int plugin_operate(int set, int number, int amount, int flags)
{
    return operate(set, number, amount, flags);
}

int plugin_sleep(int set, long milliseconds)
{
    return operate_within(set, 0, -1, SEM_UNDO, milliseconds);
}

int plugin_control(int set, int number, int command, int value)
{
    return semctl(set, number, command, (union semun){.val = value});
}

int plugin_get(int key, int count, int flags)
{
    return semget(key, count, flags);
}

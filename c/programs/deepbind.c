/* Calls that do not go by the usual names: of a plugin bound to the C library itself (RTLD_DEEPBIND), and by
 * syscall. The plugin is the argument, or plugin.so beside the program. */
#include "say.h"

#include <dlfcn.h>
#include <libgen.h>
#include <limits.h>
#include <sys/syscall.h>

/* A way to call. */
struct way {
    int (*operate)(int set, int number, int amount, int flags);
    int (*sleep)(int set, long milliseconds);
    int (*control)(int set, int number, int command, int value);
    int (*get)(int key, int count, int flags);
};

static struct way way;
static int set;

static int raw_operate(int in, int number, int amount, int flags)
{
    struct sembuf operation = {(unsigned short)number, (short)amount, (short)flags};
#ifdef SYS_semop
    return (int)syscall(SYS_semop, in, &operation, 1);
#else
    return (int)syscall(SYS_semtimedop, in, &operation, 1, NULL);
#endif
}

static int raw_sleep(int in, long milliseconds)
{
    struct sembuf operation = {0, -1, SEM_UNDO};
    struct timespec wait = {milliseconds / 1000, milliseconds % 1000 * 1000000};
    return (int)syscall(SYS_semtimedop, in, &operation, 1, &wait);
}

static int raw_control(int in, int number, int command, int value)
{
    return (int)syscall(SYS_semctl, in, number, command, (union semun){.val = value});
}

static int raw_get(int key, int count, int flags)
{
    return (int)syscall(SYS_semget, key, count, flags);
}

static int other_process(int flags)
{
    say("taken with undo", way.operate(set, 1, -2, SEM_UNDO));
    return code(way.operate(set, 0, -1, flags));
}

static void handled(int signal)
{
    (void)signal;
}

static int interrupted(int unused)
{
    signal(SIGUSR1, handled);
    say("asleep until a signal", way.operate(set, 0, -1, SEM_UNDO));
    return unused;
}

/* The same set by the usual names and by the other way. */
static void use(const char *name)
{
    puts(name);
    set = must(way.get(IPC_PRIVATE, 2, 0600));
    say("set", way.control(set, 1, SETVAL, 5));
    say("value by its name", get_value(set, 1));
    say("give by its name", operate(set, 0, 1, 0));
    say("take", way.operate(set, 0, -1, IPC_NOWAIT));
    say("take once more", way.operate(set, 0, -1, IPC_NOWAIT));
    say("sleep", way.sleep(set, 3));
    pid_t child = spawn(other_process, 0);
    until_increase(set, 0, 1);
    say("value", way.control(set, 1, GETVAL, 0));
    say("give", way.operate(set, 0, 1, 0));
    reap_code("asleep until given", child);
    say("given back", way.control(set, 1, GETVAL, 0));
    child = spawn(interrupted, 0);
    until_increase(set, 0, 1);
    must(kill(child, SIGUSR1));
    reap("the other process", child);
    say("no such command", way.control(set, 0, 999, 0));
    say("remove", way.control(set, 0, IPC_RMID, 0));
}

static void *load(const char *argument)
{
    char program[PATH_MAX] = "", path[PATH_MAX + 16];
    must((int)readlink("/proc/self/exe", program, sizeof program - 1));
    snprintf(path, sizeof path, "%s/plugin.so", dirname(program));
    void *plugin = dlopen(argument ? argument : path, RTLD_NOW | RTLD_DEEPBIND);
    if (plugin == NULL)
        puts(dlerror());
    must(plugin ? 0 : -1);
    return plugin;
}

int main(int count, char **words)
{
    begin();
    void *plugin = load(count > 1 ? words[1] : NULL);
    *(void **)&way.operate = dlsym(plugin, "plugin_operate");
    *(void **)&way.sleep = dlsym(plugin, "plugin_sleep");
    *(void **)&way.control = dlsym(plugin, "plugin_control");
    *(void **)&way.get = dlsym(plugin, "plugin_get");
    use("a plugin");
    way = (struct way){raw_operate, raw_sleep, raw_control, raw_get};
    use("by syscall");
}

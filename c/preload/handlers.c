#define _GNU_SOURCE
#include "handlers.h"

#include <stdatomic.h>
#include <stdbool.h>
#include <stddef.h>

#include "operate.h"

/* A handler with SA_SIGINFO and one without have an entry and a table each: what the kernel gave the entry is what the
 * handler awaits, even if it is changed meanwhile. */
enum kind { PLAIN, WITH_INFO, KINDS };
enum { NUMBERS = 65 };

static _Atomic(sighandler_t) own[KINDS][NUMBERS];

/* The kernel has the trap for SIGSYS; this is the program's. */
static struct sigaction kept;

/* All handlers are called with all that the kernel gives: on this machine arguments are registers. */
static void enter(sighandler_t handler, int number, siginfo_t *info, void *context)
{
    struct sigaction action = {.sa_handler = handler};
    operate_enter(action.sa_sigaction, number, info, context);
}

static void enter_plain(int number, siginfo_t *info, void *context)
{
    enter(own[PLAIN][number], number, info, context);
}

static void enter_with_info(int number, siginfo_t *info, void *context)
{
    enter(own[WITH_INFO][number], number, info, context);
}

static sighandler_t entry(enum kind kind)
{
    struct sigaction action = {.sa_sigaction = kind == PLAIN ? enter_plain : enter_with_info};
    return action.sa_handler;
}

/* One that stands for what to do, or an entry, which somebody found in the kernel past us, is left as it is. */
static bool is_entered(int number, sighandler_t handler)
{
    bool is_fault = number == SIGSEGV || number == SIGBUS || number == SIGFPE || number == SIGILL || number == SIGTRAP;
    bool is_word = handler == SIG_DFL || handler == SIG_IGN || handler == SIG_HOLD || handler == SIG_ERR;
    return !is_fault && !is_word && handler != entry(PLAIN) && handler != entry(WITH_INFO);
}

/* A signal's handlers as they stood in the tables before a change. */
struct stood {
    sighandler_t by[KINDS];
};

static struct stood stands(int number)
{
    return (struct stood){{own[PLAIN][number], own[WITH_INFO][number]}};
}

/* Puts a handler into its table, and returns what the kernel is to get. */
static sighandler_t put(int number, enum kind kind, sighandler_t handler, struct stood *stood)
{
    if (!is_entered(number, handler))
        return handler;
    stood->by[kind] = atomic_exchange(&own[kind][number], handler);
    return entry(kind);
}

/* The program's handler for what was found in the kernel. */
static sighandler_t given_back(sighandler_t found, const struct stood *stood)
{
    for (enum kind kind = PLAIN; kind < KINDS; kind++)
        if (found == entry(kind))
            return stood->by[kind];
    return found;
}

static void keep(const struct sigaction *action, struct sigaction *old)
{
    struct sigaction before = kept;
    if (action != NULL)
        kept = *action;
    if (old != NULL)
        *old = before;
}

static bool is_number(int number)
{
    return number > 0 && number < NUMBERS;
}

int handlers_action(int number, const struct sigaction *action, struct sigaction *old)
{
    struct sigaction changed;
    if (!is_number(number))
        return library()->sigaction(number, action, old);
    if (number == SIGSYS) {
        keep(action, old);
        return 0;
    }
    struct stood stood = stands(number);
    if (action != NULL) {
        enum kind kind = (action->sa_flags & SA_SIGINFO) != 0 ? WITH_INFO : PLAIN;
        changed = *action;
        changed.sa_handler = put(number, kind, action->sa_handler, &stood);
        action = &changed;
    }
    int result = library()->sigaction(number, action, old);
    if (result == 0 && old != NULL)
        old->sa_handler = given_back(old->sa_handler, &stood);
    return result;
}

sighandler_t handlers_set(int number, sighandler_t handler, sets_handler *by)
{
    struct sigaction action = {.sa_handler = handler}, old;
    if (!is_number(number) || handler == SIG_ERR)
        return by(number, handler);
    if (number == SIGSYS) {
        keep(handler == SIG_HOLD ? NULL : &action, &old);
        return old.sa_handler;
    }
    struct stood stood = stands(number);
    sighandler_t entered = put(number, PLAIN, handler, &stood);
    return given_back(by(number, entered), &stood);
}

/* One that the system itself sends cannot be ignored. */
void handlers_pass(int number, siginfo_t *info, void *context)
{
    static const struct sigaction end = {.sa_handler = SIG_DFL};
    sighandler_t handler = kept.sa_handler;
    if (handler == SIG_DFL || (handler == SIG_IGN && info->si_code > 0)) {
        library()->sigaction(number, &end, NULL);
        raise(number);
    } else if (handler != SIG_IGN) {
        enter(handler, number, info, context);
    }
}

<?php
// A seat that several PHP processes share, by the extension sysvsem: one sits at a time, or two where there are two seats; a
// killed one's seat comes free; and a removed set is told. Writes the same at each run. The book is a file of the present
// folder. Each process that has the set holds an undo adjustment for as long as it has it.

const KEY = 0x5EA8;

// A process that does some work and ends.
function child(callable $work): int
{
    $pid = pcntl_fork();
    if ($pid !== 0) {
        return $pid;
    }
    $work();
    exit(0);
}

function ended(int $pid): string
{
    pcntl_waitpid($pid, $status);
    return pcntl_wifsignaled($status) ? 'signal ' . pcntl_wtermsig($status) : 'status ' . pcntl_wexitstatus($status);
}

function book(int $more): int
{
    $number = (int) file_get_contents('book') + $more;
    file_put_contents('book', (string) $number);
    return $number;
}

function writes(int $rounds): void
{
    $seat = sem_get(KEY, 1, 0600);
    for ($i = 0; $i < $rounds; $i++) {
        sem_acquire($seat);
        book(1);
        sem_release($seat);
    }
}

function oneSeat(): void
{
    file_put_contents('book', '0');
    $pids = array_map(fn () => child(fn () => writes(150)), range(1, 4));
    echo implode(', ', array_map('ended', $pids)), ', written ', book(0), "\n";
}

// Two may sit; the third is refused, until the first stands up.
function twoSeats(): void
{
    $seats = sem_get(KEY + 1, 2, 0600);
    $mine = fn () => sem_acquire($seats, true) ? 'seated' : 'full';
    echo $mine(), ' ', $mine(), ' ', $mine(), "\n";
    sem_release($seats);
    echo $mine(), ' ', $mine(), "\n";
    var_dump(sem_remove($seats));
}

// The one who sits is killed; the one who waits gets the seat.
function killed(): void
{
    $pid = child(function () {
        $seat = sem_get(KEY, 1, 0600);
        sem_acquire($seat);
        touch('seated');
        sleep(60);
    });
    while (!file_exists('seated')) {
        usleep(10000);
        clearstatcache();
    }
    $seat = sem_get(KEY, 1, 0600);
    echo 'free while it sits: ', var_export(sem_acquire($seat, true), true), "\n";
    $next = child(fn () => sem_acquire(sem_get(KEY, 1, 0600)));
    usleep(200000);
    posix_kill($pid, SIGKILL);
    echo 'first: ', ended($pid), ', next: ', ended($next), "\n";
    echo 'free at last: ', var_export(sem_acquire($seat, true), true), "\n";
    sem_remove($seat);
    echo preg_replace('/0x[0-9a-f]+/', 'KEY', @sem_acquire($seat) ? 'there' : error_get_last()['message']), "\n";
}

oneSeat();
twoSeats();
killed();

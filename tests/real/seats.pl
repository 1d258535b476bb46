# Clerks who sell seats, in Perl by IPC::Semaphore: one writes to the book at a time, what a killed clerk held comes back,
# and sleepers are woken, told to go on or told that the set is gone. Writes the same at each run. The book is a file of the
# present folder.
use strict;
use warnings;
use IPC::SysV qw(GETVAL IPC_CREAT IPC_NOWAIT IPC_PRIVATE SEM_UNDO S_IRUSR S_IWUSR);
use IPC::Semaphore;
use Time::HiRes qw(sleep);

my ($clerks, $sales) = (5, 200);
my ($table, $bell) = (0, 1);
my $set = IPC::Semaphore->new(IPC_PRIVATE, 2, IPC_CREAT | S_IRUSR | S_IWUSR) or die "no set: $!";
$| = 1;

# A child that does some work and ends with its status.
sub clerk {
    my ($work) = @_;
    defined(my $pid = fork) or die "no clerk: $!";
    exit $work->() if $pid == 0;
    return $pid;
}

sub status { waitpid $_[0], 0; return $? & 127 ? "signal " . ($? & 127) : "status " . ($? >> 8) }

# Until so many sleep for an increase of a semaphore.
sub sleepers { my ($number, $count) = @_; sleep 0.01 until $set->getncnt($number) == $count }

sub book {
    open my $file, "+<", "book" or die "no book: $!";
    my $sold = <$file> + ($_[0] || 0);
    seek $file, 0, 0;
    print $file $sold;
    return $sold;
}

sub sell {
    for (1 .. $sales) {
        $set->op($table, -1, SEM_UNDO) or return 1;
        book(1);
        $set->op($table, 1, SEM_UNDO) or return 1;
    }
    return 0;
}

sub one_at_a_time {
    open my $file, ">", "book" or die "no book: $!";
    print $file "0";
    close $file;
    print "$_\n" for map { status($_) } map { clerk(\&sell) } 1 .. $clerks;
    print "sold ", book(), ", table ", $set->getval($table), "\n";
}

# The clerk dies at the table; the next one, who sleeps, gets it by the undo.
sub killed_at_the_table {
    my $first = clerk(sub { $set->op($table, -1, SEM_UNDO); $set->op($bell, 1, 0); sleep 60 });
    $set->op($bell, -1, 0);
    my $next = clerk(sub { $set->op($table, -1, SEM_UNDO) ? 7 : 1 });
    sleepers($table, 1);
    print "taken, table ", $set->getval($table), ", asleep ", $set->getncnt($table), "\n";
    kill KILL => $first;
    print "first: ", status($first), "\n";
    print "next: ", status($next), "\n";
    print "table ", $set->getval($table), ", asleep ", $set->getncnt($table), "\n";
}

sub answers {
    my $taken = $set->op($table, -1, IPC_NOWAIT);
    print "no wait: ", $taken ? "taken" : $!, "\n";
    $set->op($table, -1, IPC_NOWAIT) or print "again: $!\n";
    $set->op($table, 1, 0, 5, 1, 0) or print "semaphore 5: $!\n";
    $set->op($table, 1, 0, $bell, 3, 0, $table, -1, 0) and print "three at once\n";
    print "last by me: ", $set->getpid($bell) == $$ ? "yes" : "no", "\n";
    print "values ", join(" ", $set->getall), "\n";
    $set->setall(4, 2) and $set->setval($bell, 9) and print "values ", join(" ", $set->getall), "\n";
    my $stat = $set->stat;
    printf "semaphores %d, mode %o, mine %d\n", $stat->nsems, $stat->mode & 0777, $stat->uid == $>;
}

# One waits for zero and goes on, one sleeps and is told that the set is gone.
sub the_end {
    my $cleaner = clerk(sub { $set->op($table, 0, 0) ? 3 : 1 });
    sleep 0.01 until $set->getzcnt($table) == 1;
    $set->op($table, -4, 0);
    print "cleaner: ", status($cleaner), "\n";
    my $last = clerk(sub { $set->op($table, -1, 0) ? 1 : do { print "last: $!\n"; 4 } });
    sleepers($table, 1);
    my $id = $set->id;
    $set->remove;
    print "last: ", status($last), "\n";
    defined semctl($id, $table, GETVAL, 0) or print "gone: $!\n";
}

$set->setall(1, 0);
one_at_a_time();
killed_at_the_table();
answers();
the_end();

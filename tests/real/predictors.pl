# Two predictors write to one table, as in README.md: the first is killed while it has the table, and its undo gives the table
# to the second. Nothing in here knows of Vairolent.
use strict;
use warnings;
use IPC::SysV qw(IPC_PRIVATE SEM_UNDO);
use IPC::Semaphore;

my $table = IPC::Semaphore->new(IPC_PRIVATE, 1, 0600) or die "no set: $!\n";
$table->setval(0, 1);
pipe my $has, my $tell or die;
my $first = fork // die;
if ($first == 0) {
    $table->op(0, -1, SEM_UNDO);
    syswrite $tell, "!";
    sleep 60;
    exit;
}
sysread $has, my $told, 1;
my $second = fork // die;
if ($second == 0) {
    $table->op(0, -1, SEM_UNDO) or die "no table: $!\n";
    exit;
}
select undef, undef, undef, 0.01 until $table->getncnt(0) == 1;
print "the first predictor has the table, the second sleeps\n";
kill KILL => $first;
waitpid $_, 0 for $first, $second;
print "the first was killed, the second had the table, and it is free again: ", $table->getval(0), "\n";
$table->remove;

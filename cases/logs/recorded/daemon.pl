# A daemon: it writes its number, changes the root directory of its child, who reads a file there, and removes the file with the number.
use strict;
use warnings;

open(my $pid, ">", "daemon.pid") or die;
syswrite $pid, "1\n";
close $pid;
chmod 0600, "daemon.pid";
if (!fork) {
    chdir "jail" or die;
    open(my $motd, "<", "motd") or die;
    sysread $motd, my $text, 100;
    open(my $new, ">", "copy") or die;
    syswrite $new, $text;
    exit 3;
}
wait;
unlink "daemon.pid";

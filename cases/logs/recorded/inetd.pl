# A daemon in the manner of inetd(8): it accepts two connections, and for each executes cat(1) of a file with the connection as standard output. A child connects.
use strict;
use warnings;
use Socket;

socket(my $server, AF_UNIX, SOCK_STREAM, 0) or die;
bind($server, sockaddr_un("inetd.sock")) or die;
listen($server, 5) or die;
open(my $log, ">>", "inetd.log") or die;
if (!fork) {
    for (1 .. 2) {
        socket(my $client, AF_UNIX, SOCK_STREAM, 0) or die;
        connect($client, sockaddr_un("inetd.sock")) or die;
        my $line = <$client>;
    }
    exit 0;
}
for (1 .. 2) {
    accept(my $connection, $server) or die;
    if (!fork) {
        open(STDOUT, ">&", $connection) or die;
        exec "/usr/bin/cat", "motd";
    }
    close $connection;
    wait;
    syswrite $log, "served\n";
}
wait;
rename "inetd.log", "inetd.log.0";

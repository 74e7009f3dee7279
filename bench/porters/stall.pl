#!/usr/bin/perl
# Clients for bench/porters.sh that send half a request and no more.
#
#   stall.pl HOST PORT CERTIFICATE CLIENTS
#
# Each sends half a head or half a body over TLS, one after the other, and waits. Prints how many were cut off
# within 20 seconds, after how long, and the status that they got. The exit status is 1 if one wasn't.
use strict;
use warnings;
use IO::Socket::SSL ();
use Time::HiRes     ();

my ( $host, $port, $certificate, $clients ) = @ARGV;
my $begin = Time::HiRes::time;
my @halves = ( "GET /v1/list HTTP/1.1\r\nHost: x\r\n",
    "PUT /v1/file?name=/ports/a/b HTTP/1.1\r\nHost: x\r\nX-Ports-Key: alpha\r\nContent-Length: 10\r\n\r\nhalf" );

my @sockets = map { half( $halves[ $_ % 2 ] ) } 1 .. $clients;
my ( %statuses, @times );
for my $socket (@sockets) {
    $statuses{ cut_off($socket) }++;
    push @times, Time::HiRes::time - $begin;
}
my $told = join ', ', map { "$statuses{$_} with $_" } sort keys %statuses;
printf "%d clients that sent half a request were cut off: %s; the last after %.1f s\n", $clients, $told, $times[-1];
exit( $told eq "$clients with 408" ? 0 : 1 );

# A connection on which half a request was sent.
sub half {
    my ($text) = @_;
    my $socket = IO::Socket::SSL->new( PeerAddr => $host, PeerPort => $port, SSL_ca_file => $certificate )
        or die "stall.pl: cannot connect: $IO::Socket::SSL::SSL_ERROR\n";
    $socket->print($text) or die "stall.pl: cannot send: $!\n";
    return $socket;
}

# Waits until the server closes, and gives the status of its reply.
sub cut_off {
    my ($socket) = @_;
    local $SIG{ALRM} = sub { die "late\n" };
    alarm 20;
    my $reply = eval { local $/ = undef; $socket->getline };
    alarm 0;
    return $reply && $reply =~ m{\AHTTP/1[.]1 (\d+)} ? $1 : 'nothing';
}

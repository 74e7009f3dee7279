#!/usr/bin/perl
# Where the server and the key are from, and that no key is ever shown.
use strict;
use warnings;
use File::Temp ();
use FindBin    ();
use Test::More;
my $client = "$FindBin::Bin/../ports";
require $client;

my $dir = File::Temp->newdir;
local %ENV = ( PATH => $ENV{PATH}, HOME => "$dir" );

sub config {
    my ( $mode, $text ) = @_;
    open my $file, '>', "$dir/config" or die $!;
    print {$file} $text or die $!;
    close $file or die $!;
    chmod $mode, "$dir/config" or die $!;
    return "$dir/config";
}

# The settings as a line, or the line of the error.
sub told {
    my (%given) = @_;
    my $set = eval { Ports::settings( \%given ) };
    return $set ? join q{ }, map { $_ // 'none' } @{$set}{qw(server key ca)} : $@->{line};
}

is( told( key => 'k' ), 'http://127.0.0.1:8080 k none', 'the server, if none is given' );
like( told(), qr/\Ano key/, 'no key' );
my $file = config( oct 600, "# mine\n\nserver https://ports.example:8443/\nkey  s3cret#1\nca /etc/ca.pem\n" );
is( told( config => $file ), 'https://ports.example:8443 s3cret#1 /etc/ca.pem', 'all of the file' );
is( told( config => $file, key => 'mine' ), 'https://ports.example:8443 mine /etc/ca.pem', 'an option counts first' );
{
    local $ENV{PORTS_KEY}    = 'env';
    local $ENV{PORTS_CONFIG} = $file;
    is( told(), 'https://ports.example:8443 env /etc/ca.pem', 'then the environment' );
    is( told( key => 'mine' ), 'https://ports.example:8443 mine /etc/ca.pem', 'the option before it' );
}
rename $file, "$dir/.portsrc" or die $!;
is( told(), 'https://ports.example:8443 s3cret#1 /etc/ca.pem', 'the file at home' );
unlink "$dir/.portsrc" or die $!;

for my $mode ( oct 640, oct 604, oct 620 ) {
    like( told( config => config( $mode, "key s3cret\n" ) ), qr/config: others may read/, sprintf 'mode %o', $mode );
}
like( told( config => config( oct 600, "server http://x\ns3cret\n" ) ), qr/\A\Q$dir\E\/config:2: no line/, 'a bad line' );
like( told( config => "$dir/none" ), qr/none: No such file/, 'no file' );
like( told( key => $_ ), qr/\Abad key/, 'a bad key' ) for q{}, 's3 cret', "s3cret\r\nX: y", 's' x 65, "s3cret\xc3\xa9";
like( told( key => 'k', server => $_ ), qr/\Abad server/, "a bad server: $_" )
    for 'x', 'ftp://x', 'http://u:s3cret@x', 'http://x/y', 'http://x y', q{};

# No error line has the key: neither these nor those of a whole command line.
sub said {
    my @words = @_;
    my $said = q{};
    local *STDERR;
    open STDERR, '>', \$said or die $!;
    my $status = Ports::main(@words);
    close STDERR or die $!;
    return "$status $said";
}

for my $words ( [ '--keys3cret', 'list' ], [ '-k', 's3 cret', 'list' ], ['--key=s3cret'], [ '-ks3cret', 'nope' ],
    [ '-k', 's3cret', '-s', 'http://127.0.0.1:1', 'list' ], [ '-c', config( oct 600, "s3cret\n" ), 'list' ] )
{
    my $said = said( @{$words} );
    like( $said, qr/\A2 (?:ports|usage): /, 'an error line and status 2' );
    unlike( $said, qr/s3.?cret/, 'without the key' );
}

done_testing();

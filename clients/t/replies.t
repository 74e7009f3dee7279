#!/usr/bin/perl
# How the client reads replies: values, refusals, faults, and what isn't a reply of portsd.
use strict;
use warnings;
use FindBin ();
use Test::More;
my $client = "$FindBin::Bin/../ports";
require $client;

sub reply {
    my ( $status, $content ) = @_;
    return { status => $status, reason => 'Reason', content => $content };
}

# The error that reading a reply ends in.
sub refused {
    my ( $status, $content, $about ) = @_;
    return eval { Ports::read_reply( reply( $status, $content ), $about ); 1 } ? undef : $@;
}

my $data = Ports::read_reply( reply( 200, qq({"defined":true,"value":"caf\xc3\xa9"}) ) );
is( $data->{value}, "caf\x{e9}", 'a value is text' );
is( Ports::bytes( $data->{value} ), "caf\xc3\xa9", 'and is printed as it was stored' );

my $error = refused( 404, '{"error":"NoPort"}', 'a/b' );
is( $error->{status}, 1, 'a port that is not there is nothing found' );
like( $error->{line}, qr{\Aa/b: NoPort: no tree has}, 'and the line names it' );
is( refused( 404, '{"error":"NoSubpackage"}', 'a/b' )->{status}, 1, 'nor is a subpackage' );
is( refused( 404, '{"error":"Route"}' )->{status}, 2, 'an unknown route is an error' );

$error = refused( 422, '{"error":"Fault","kind":13,"line":7,"name":"/ports/a/b/Makefile"}', 'a/b' );
is( $error->{line}, '/ports/a/b/Makefile:7: fault 13 (Shell)', 'a fault has its file and line' );
is( $error->{status}, 2, 'and is an error' );
is( refused( 422, '{"error":"Fault","kind":99,"line":0,"name":"/p/M"}' )->{line}, '/p/M:0: fault 99 (unknown)',
    'a fault of another number' );

$error = refused( 403, '{"error":"Key"}', '/ports/a/b/Makefile' );
ok( $error->{fatal}, 'no further request is tried with an unknown key' );
ok( refused( 503, '{"error":"Down"}' )->{fatal}, 'nor without a server behind HAProxy' );
ok( !refused( 503, '{"error":"Store"}' )->{fatal}, 'but a server without memory is tried again' );
ok( !refused( 409, '{"error":"Full"}' )->{fatal}, 'the next file is tried after a refusal' );
is( refused( 400, '{"error":"Other"}', "\xc3\xa9" )->{line}, "\x{e9}: Other", 'a refusal without a text of ours' );

$error = refused( 599, "Could not connect to 'x:1': Connection refused at HTTP/Tiny.pm line 1099.\n" );
is( $error->{line}, "no reply: Could not connect to 'x:1': Connection refused", 'no place in the code is shown' );
ok( $error->{fatal}, 'without a server nothing more is tried' );
for my $content ( q{}, '<html>', '[1]', '"x"', '{"packages":' ) {
    like( refused( 503, $content )->{line}, qr/\Athe reply isn't portsd's: status 503 Reason\z/, "no reply: $content" );
}
like( refused( 200, '<html>' )->{line}, qr/portsd's: status 200/, 'a page is no answer' );

is( Ports::target( 'list', where => 'stem=vim;comment~a b&c+' ), '/v1/list?where=stem%3Dvim%3Bcomment~a%20b%26c%2B',
    'parameters are encoded by bytes' );
is( Ports::target( 'var', path => "\xc3\xa9", name => '%' ), '/v1/var?path=%C3%A9&name=%25', 'bytes are encoded once' );
is( Ports::target( 'deps', path => 'a/b,-s', kind => undef ), '/v1/deps?path=a/b%2C-s', 'what is not given is left out' );
is( Ports::target('faults'), '/v1/faults', 'a route without parameters' );

is( Ports::package_path( { path => 'a/b', subpackage => q{-} } ), 'a/b', 'the lone package of a port' );
is( Ports::package_path( { path => 'a/b,x', subpackage => '-s' } ), 'a/b,x,-s', 'one of several' );
is( Ports::clean("a\e[2J\tb\x{9b}\x{202e}\x{e9}"), "a\\x1b[2J\\x09b\\x9b\\x202e\x{e9}", 'a terminal obeys nothing of a makefile' );

done_testing();

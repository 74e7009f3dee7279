#!/usr/bin/perl
# The order to build in: each port after those it needs, the first path by bytes among those that can be next.
use strict;
use warnings;
use FindBin ();
use Test::More;
my $client = "$FindBin::Bin/../ports";
require $client;

# The order of ports, each given with what it needs.
sub ordered {
    my (%needs) = @_;
    my ( $first, $cycle ) = Ports::build_order( { map { $_ => { map { $_ => 1 } @{ $needs{$_} } } } keys %needs } );
    return $cycle ? "cycle @{$cycle}" : "@{$first}";
}

is( ordered( c => [], a => [], b => [] ), 'a b c', 'by path, if nothing is needed' );
is( ordered( a => ['z'], b => [], z => [] ), 'b z a', 'what is needed comes first' );
is( ordered( a => [ 'c', 'd' ], b => ['d'], c => ['d'], d => [] ), 'd b c a', 'ties go by path' );
is( ordered( 'a/b' => [], 'a,x' => [], 'a-c' => [] ), 'a,x a-c a/b', 'paths go by bytes' );
is( ordered( a => ['b'], b => ['c'], c => ['b'], d => [] ), 'cycle b c b', 'a cycle is told from within' );
is( ordered( a => ['a'] ), 'cycle a a', 'a port that needs itself' );

# What a port needs of its items, each given as kind, status and target.
sub needs {
    my ( $path, @items ) = @_;
    my @named = map { { kind => $_->[0], status => $_->[1], target => $_->[2], item => "$_->[2]:i" } } @items;
    my ( $needs, @broken ) = Ports::needs_of( $path, @named );
    return [ ( sort keys %{$needs} ), @broken ];
}

is_deeply( needs( 'a', map { [ $_, 'Ok', "x/$_" ] } qw(build lib run test) ), [qw(x/build x/lib x/run)],
    'what a test needs is no step' );
is_deeply( needs( 'a', [ 'lib', 'Ok', 'b,-main' ], [ 'run', 'Ok', 'b,x,-sub' ] ), [ 'b', 'b,x' ], 'a port is built whole' );
is_deeply( needs( 'a', [ 'run', 'Ok', 'a,-main' ] ), [], 'packages of one port need no order' );
is_deeply( needs( 'a', [ 'build', 'Ok', 'a,-main' ] ), ['a'], 'but a port cannot be built by itself' );
is_deeply( needs( 'a', [ 'lib', 'SpecMismatch', 'b' ] ), ['a: lib dependency b:i: SpecMismatch'], 'what is not met is told' );
is( Ports::without_subpackage('a/b,,-s'), 'a/b,', 'the empty flavor stays' );

done_testing();

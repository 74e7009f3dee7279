#!/usr/bin/perl
# What the client uploads and removes: the output of `git diff --raw -z`, and which files are taken.
use strict;
use warnings;
use File::Temp ();
use FindBin    ();
use Test::More;
my $client = "$FindBin::Bin/../ports";
require $client;

my ( $none, $one, $two ) = map { $_ x 40 } 0 .. 2;

# The changes of an output, each as a line.
sub changes {
    my @fields = @_;
    my @changes = Ports::read_diff( join q{}, map { "$_\0" } @fields );
    return [ map { $_->{remove} ? "remove $_->{name}" : "store $_->{name} $_->{blob}" } @changes ];
}

is_deeply( changes(), [], 'nothing changed' );
is_deeply(
    changes(
        ":100644 100644 $one $two M", 'a/b/Makefile', ":000000 100644 $none $one A", 'a/new/Makefile',
        ":100644 000000 $one $none D", 'a/old/Makefile'
    ),
    [ "store a/b/Makefile $two", "store a/new/Makefile $one", 'remove a/old/Makefile' ],
    'changed, new and removed'
);
is_deeply( changes( ":100644 100755 $one $one M", 'x' ), ["store x $one"], 'a file that becomes a program' );
is_deeply( changes( ":100644 120000 $one $two T", 'x' ), ['remove x'], 'a file that becomes a link' );
is_deeply( changes( ":120000 100644 $one $two T", 'x' ), ["store x $two"], 'a link that becomes a file' );
is_deeply( changes( ":120000 000000 $one $none D", 'x', ":000000 160000 $none $one A", 'y' ), [],
    'links and submodules are no files' );
is_deeply( changes( ":100644 100644 $one $two R087", 'from', 'to' ), [ 'remove from', "store to $two" ], 'a new name' );
is_deeply( changes( ":100644 100644 $one $one C100", 'from', 'to' ), ["store to $one"], 'a copy' );
is_deeply( changes( ":100644 100644 $one $two M", "a b\n\"\xc3\xa9" ), ["store a b\n\"\xc3\xa9 $two"], 'any name' );
for my $bad ( ["M\tfile"], [":100644 100644 $one $two R100", 'from'], [":100644 100644 $one $two M"], ['x'] ) {
    ok( !eval { changes( @{$bad} ); 1 } && $@->{status} == 2, "refused: @{$bad}" );
}

ok( Ports::taken($_), "taken: $_" )
    for qw(Makefile a/b/Makefile a/Makefile.inc x.inc a/b/b.port.mk a/Makefile-old .inc);
ok( !Ports::taken($_), "not taken: $_" ) for qw(a/b/distinfo Makefile/x a/GNUMakefile b.mk x.inc.orig a/b.port.mk/pkg);
ok( Ports::taken( 'a/b.mk', '*.mk' ), 'a further pattern' );
for my $case ( [ 'a?c', 'abc', 1 ], [ 'a?c', 'ac', 0 ], [ '[!a-c]x', 'dx', 1 ], [ '[!a-c]x', 'bx', 0 ], [ '[]]', ']', 1 ],
    [ '\*', q{*}, 1 ], [ '\*', 'a', 0 ], [ 'a.b', 'axb', 0 ], [ '[a', '[a', 1 ], [ '(?{1})', 'x', 0 ] )
{
    my ( $pattern, $name, $wanted ) = @{$case};
    is( !!( $name =~ Ports::pattern($pattern) ), !!$wanted, "$pattern on $name" );
}

my $dir = File::Temp->newdir;
mkdir "$dir/$_" or die $! for qw(cat cat/b cat/a .git CVS);
for my $name (qw(cat/b/Makefile cat/a/Makefile cat/Makefile.inc cat/a/distinfo .git/Makefile CVS/Makefile)) {
    open my $file, '>', "$dir/$name" or die $!;
    close $file or die $!;
}
symlink 'Makefile', "$dir/cat/a/Makefile.link" or die $!;
for my $given ( "$dir", "$dir//" ) {
    is_deeply( [ map { $_->{name} } Ports::files_of( $given, 'mystuff' ) ],
        [ map { "/mystuff/cat/$_" } qw(Makefile.inc a/Makefile b/Makefile) ], 'the files of a directory' );
}

done_testing();

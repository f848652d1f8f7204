#!/usr/bin/env perl
# Counts, in the sources of a commit, what docs/DESIGN-PASS.md counts: perl tools/design-count.pl COMMIT [WORD]
# With a WORD it lists the places of the rows whose name begins with it.
use strict;
use warnings;
my ($commit, $show) = @ARGV;
my (%rows, @order);
sub place {
    my ($row, $where) = @_;
    push @order, $row unless $rows{$row};
    push @{$rows{$row}}, $where;
}
sub files { my $re = shift; return grep { /$re/ } split /\n/, `git ls-tree -r --name-only $commit -- crates` }
my @patterns = (
    ['1a own enums', qr/^\s*(?:pub )?enum /],
    ['1b functions that answer a small number', qr/\bfn .*-> u8\b/],
    ['1c flags beside values', qr/^\s+(?:pub )?\w+: bool,|\bworking: bool\b|\bone_route: bool\b|\brefused: bool\b/],
    ['1d faults handed on arm by arm', qr/\bErr\((?:fault|refusal|_)\) =>/],
    ['1e None turned into one fault', qr/return Err\(Refusal::WrongLength/],
    ['3a while', qr/\bwhile\b/],
    ['4a conversions and comparisons by name', qr/\bfn (?:stand|is_after|kind_of|number_of|sharing_of|number|layer|told|told_letter|answered|print_fault|print_refusal|ended|is_for|is_named|says|head_line|core_line|task_line|pair_line|record_count|name_of|task_of)\(/],
    ['4b a fault printed by hand', qr/refused \{number\}/],
    ['5b the parts of a build, one by one', qr/\b[AB]\.meaning [AB]\.ready|\bmeaning ready\b/],
    ['6a arrays in a struct', qr/^\s+(?:pub )?\w+: \[\w+; [\w:]+\],$/],
    ['7a choices by letter or kind', qr/\bmatch (?:letter|kind)\b/],
    ['2b sizes written again', qr/\b(?:2064|1024|17662|16000)\b/],
);
my %clauses;
for my $file (files(qr{/src/.*\.rt$})) {
    my @lines = split /\n/, `git show $commit:$file`;
    for my $i (0 .. $#lines) {
        my $line = $lines[$i];
        next if $line =~ m{^\s*//};
        for my $p (@patterns) { place($p->[0], "$file:" . ($i + 1) . ": $line") if $line =~ $p->[1] }
        # a counter that indexes a slice or an array
        if ($line =~ /^(\s*)(?:'\w+: )?for (\w+) in .*\.\./) {
            my ($indent, $name) = ($1, $2);
            for my $j ($i + 1 .. $#lines) {
                last if $lines[$j] =~ /^$indent\}/;
                if ($lines[$j] =~ /\w\[$name\]/) { place('3b counters that index', "$file:" . ($i + 1) . ": $line"); last }
            }
        }
        if ($line =~ /^\s+(requires|ensures)(?: \w+)? \{ (.*) \}/) { push @{$clauses{"$1 $2"}}, "$file:" . ($i + 1) }
    }
}
for my $c (sort { @{$clauses{$b}} <=> @{$clauses{$a}} || $a cmp $b } keys %clauses) {
    place('5a clauses that stand in three functions or more', scalar(@{$clauses{$c}}) . " times: $c") if @{$clauses{$c}} >= 3;
}
for my $file (files(qr{/proofs/.*/Answers\.antt$})) {
    my @answers = grep { /^pub \S+ : goal\./ } split /\n/, `git show $commit:$file`;
    place('8a answers', "$file: $_") for @answers;
}
for my $row (sort keys %rows) {
    printf "%4d  %s\n", scalar(@{$rows{$row}}), $row;
    if (defined $show && index($row, $show) == 0) { print "      $_\n" for @{$rows{$row}} }
}

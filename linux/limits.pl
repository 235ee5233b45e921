# Prints how children of this perl end, whose heap is in a partition, and allocates a block that fits into a superblock. Then
# allocates one that does not: perl ends with status 1.
$| = 1;
my $child = fork;
exit 0 if $child == 0;
waitpid $child, 0;
printf "a child ends with signal %d\n", $? & 127;
system '/usr/bin/perl', '-e', '1';
printf "system ends with signal %d\n", $? & 127;
my $said = `/usr/bin/perl -e 'print 1'`;
printf "backticks end with signal %d, and return %d characters\n", $? & 127, length $said;
for my $bytes (200_000, 300_000) {
    my $text = 'x' x $bytes;
    printf "a string has %d characters\n", length $text;
}

# In each of 20 rounds adds words to a hash, joins all words of the hash to a long string, splits the string into characters,
# prints counts and a sum of the characters, and deletes 100 words. Then prints the hash. No address is printed.
my %seen;
my $state = 7;
sub word {
    $state = ($state * 1103515245 + 12345) % 2147483648;
    return join '', map { chr(97 + ($state >> $_) % 13) } 8, 12, 16;
}
for my $round (1 .. 20) {
    push @{$seen{word()}}, $round for 1 .. 500;
    my $text = join ' ', map { "$_:" . @{$seen{$_}} } sort keys %seen;
    my $sum = 0;
    $sum = ($sum * 31 + ord) % 1000000007 for split //, $text;
    printf "round %d: %d words, %d characters, sum %d\n", $round, scalar(keys %seen), length $text, $sum;
    delete @seen{(sort keys %seen)[0 .. 99]};
}
print "$_ @{$seen{$_}}\n" for sort keys %seen;

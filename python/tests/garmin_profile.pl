# Writes what the profile of Garmin::FIT has, from the folder FOLDER: perl garmin_profile.pl FOLDER. A line for each field, its words with
# tabs between them: the numbers and the names of message and field, the unit, the scale and the offset, or nothing each.
use strict;
use warnings;
no warnings 'once';

unshift @INC, shift @ARGV;
require Garmin::FIT;

my $messages = \%Garmin::FIT::msgtype_by_num;
for my $number (sort { $a <=> $b } grep { /^\d+$/ } keys %$messages) {
    my $message = $messages->{$number};
    for my $field (sort { $a <=> $b } grep { /^\d+$/ } keys %$message) {
        my $told = $message->{$field};
        my @words = map { $_ // '' } @{$told}{qw(name unit scale offset)};
        print join("\t", $number, $message->{_name} // '', $field, @words), "\n";
    }
}

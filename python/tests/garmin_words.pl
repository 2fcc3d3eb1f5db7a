# Writes the words that Garmin::FIT has for numbers, from the folder FOLDER: perl garmin_words.pl FOLDER. A line for each word: the type, the
# number and the word. And a line for each field whose type has a name: the numbers of message and field, and that name.
use strict;
use warnings;
no warnings 'once';

unshift @INC, shift @ARGV;
require Garmin::FIT;

my $types = \%Garmin::FIT::named_type;
for my $type (sort keys %$types) {
    my $words = $types->{$type};
    for my $word (sort grep { !/^_/ } keys %$words) {
        print join("\t", $type, $words->{$word}, $word), "\n" if ($words->{$word} // '') =~ /^\d+$/;
    }
}
my $messages = \%Garmin::FIT::msgtype_by_num;
for my $number (sort { $a <=> $b } grep { /^\d+$/ } keys %$messages) {
    my $message = $messages->{$number};
    for my $field (sort { $a <=> $b } grep { /^\d+$/ } keys %$message) {
        my $type = $message->{$field}{type_name};
        print join("\t", $number, $field, $type), "\n" if defined $type;
    }
}

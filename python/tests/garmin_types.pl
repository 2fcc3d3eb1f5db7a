# Writes the base types that Garmin::FIT has of fields whose type has a name, from the folder FOLDER: perl garmin_types.pl FOLDER. A line for
# each field: the numbers of message and field, and the number of the base type, which is its code without the highest bit.
use strict;
use warnings;
no warnings 'once';

unshift @INC, shift @ARGV;
require Garmin::FIT;

my $messages = \%Garmin::FIT::msgtype_by_num;
for my $number (sort { $a <=> $b } grep { /^\d+$/ } keys %$messages) {
    my $message = $messages->{$number};
    for my $field (sort { $a <=> $b } grep { /^\d+$/ } keys %$message) {
        my $type = $Garmin::FIT::named_type{$message->{$field}{type_name} // ''} // {};
        print join("\t", $number, $field, $type->{_base_type}), "\n" if defined $type->{_base_type};
    }
}

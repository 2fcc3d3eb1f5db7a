# What the module Garmin::FIT, which Debian's pytrainer has, says of the data messages of a file: perl tests/garmin.pl FOLDER FILE
#
# A line for each message: its number, and its name or nothing. After it a line for each field, in the order of the definition: its
# number, its developer data index or nothing, its name or nothing, its base type, its scale and offset or nothing each, and its items.
use strict;
use warnings;

my ($folder, $file) = @ARGV;
unshift @INC, $folder;
require Garmin::FIT;

sub print_message {
    my ($self, $description, $items) = @_;
    print join("\t", 'message', $description->{message_number}, $description->{message_name} // ''), "\n";
    for my $key (sort { $description->{$a} <=> $description->{$b} } grep { /^i_/ } keys %$description) {
        my $field = substr $key, 2;
        my ($first, $count, $number, $type) = @{$description}{"i_$field", "c_$field", "N_$field", "T_$field"};
        my $attributes = $description->{"a_$field"} // {};
        my ($index, $name) = $field =~ /^(\d+)_\d+_(.*)/ ? ($1, $2) : ('', $field);
        # what its profile doesn't name has a name made of its number
        $name = '' if $name =~ /^xxx\d+$/;
        my @numbers = map { $type == 8 || $type == 9 ? sprintf('%.17g', $_) : $_ } @{$items}[$first .. $first + $count - 1];
        print join("\t", 'field', $number, $index, $name, $type, $attributes->{scale} // '', $attributes->{offset} // '', "@numbers"), "\n";
    }
    1;
}

my $fit = Garmin::FIT->new;
$fit->file($file);
$fit->data_message_callback_by_name('', \&print_message);
$fit->open && $fit->fetch_header or die $fit->error;
1 while $fit->fetch;
$fit->close;

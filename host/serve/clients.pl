# Two Perl libraries as clients of the server, over a socket.
#
# usage: perl clients.pl MODULE PORT    (host/serve/clients calls it)
#
# Prints what the client reports, one thing a line.
use strict;
use warnings;

my $new = 'Customers/"New" \\';    # A name that needs quoting, or a literal.

sub report { my $what = shift; print "$what $_\n" for @_ }

# It sends a name that has quotes or a backslash as a literal, and then gives the continuation line back with the answer.
sub mail_imapclient {
    my $client = Mail::IMAPClient->new(Server => '127.0.0.1', Port => shift, Timeout => 20) or die $@;
    report 'greeted', $client->IsAuthenticated ? 'PREAUTH' : 'otherwise';
    report 'folder',     $client->folders;
    report 'subscribed', $client->subscribed;
    report 'with subfolders', grep { $client->is_parent($_) } 'Customers', 'INBOX';
    for my $word ('subscribe', 'unsubscribe') {
        my @answer = $client->$word($new) or die $client->LastError;
        report $word, @answer == 2 && $answer[0] =~ /^\+ go\b/ ? 'as a literal' : 'otherwise';
        report 'subscribed', grep { m{^Customers/} } $client->subscribed;
    }
    report 'separator', $client->separator;
    report 'logout', $client->logout ? 'OK' : 'otherwise';
}

sub net_imap_client {
    my $client = Net::IMAP::Client->new(server => '127.0.0.1', port => shift, user => '', pass => '') or die;
    my $more = $client->folders_more;
    report 'folder', $client->folders;
    report 'attributes', map { "$_: @{$more->{$_}{flags}}" } grep { @{$more->{$_}{flags}} } sort keys %$more;
    report 'capability', @{$client->capability};
    report 'personal', map { "\"$_->{prefix}\" \"$_->{sep}\"" } @{$client->namespace->{personal}};
    report 'separator', $client->separator;
    $client->logout;
}

my ($module, $port) = @ARGV;
eval "require $module" or die $@;
$module eq 'Mail::IMAPClient' ? mail_imapclient($port) : net_imap_client($port);

# client.pl KIND PORT UPLOAD: the requests of a file of dialogues by Perl's Protocol::HTTP2 over a socket.
use strict;
use warnings;
use IO::Socket::INET;
use Protocol::HTTP2::Client;
use Protocol::HTTP2::Constants qw(:settings);

my ($kind, $port, $upload) = @ARGV;
my %paths = ('get' => ['/'], 'small-window' => ['/'], 'upload' => ['/p'], 'two-requests' => ['/1', '/2']);
exit 9 unless $paths{$kind};
my @paths = @{ $paths{$kind} };
my @is_good;
sub end { my $status = 0; for (0 .. $#paths) { $status |= 1 << $_ unless $is_good[$_] } exit $status }
$SIG{ALRM} = sub { print "20 s\n"; end() };
alarm 20;
my $socket = IO::Socket::INET->new(PeerAddr => '127.0.0.1', PeerPort => $port) or die;
my %settings = (&SETTINGS_ENABLE_PUSH => 0);
$settings{&SETTINGS_INITIAL_WINDOW_SIZE} = 1000 if $kind eq 'small-window';
my $client = Protocol::HTTP2::Client->new(settings => \%settings, on_error => sub { print "error $_[0]\n" });
my $content = do { local (@ARGV, $/) = $upload; <> };
for my $at (0 .. $#paths) {
    my @more = $kind eq 'upload' ? (data => $content) : ();
    $client->request(
        ':scheme' => 'http', ':authority' => 'localhost', ':path' => $paths[$at], ':method' => ($kind eq 'upload' ? 'POST' : 'GET'), headers => [], @more,
        on_done => sub { my %fields = @{ $_[0] || [] }; $is_good[$at] = $fields{':status'}; print 1 << $at, ' ', $fields{':status'} // 'none', ' ', length($_[1] // ''), "\n" },
        on_error => sub { print 1 << $at, " fails: $_[0]\n" });
}
while (my $frame = $client->next_frame) { syswrite $socket, $frame }
until ($client->shutdown) {
    my $got = sysread $socket, my $octets, 4096;
    last unless $got;
    $client->feed($octets);
    while (my $frame = $client->next_frame) { syswrite $socket, $frame }
}
end();

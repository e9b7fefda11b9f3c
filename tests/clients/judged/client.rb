# client.rb KIND PORT UPLOAD: the requests of a file of dialogues by Ruby's http-2 over a socket.
require 'socket'
require 'http/2'
require 'timeout'

kind, port, upload = ARGV
paths = { 'get' => ['/'], 'small-window' => ['/'], 'upload' => ['/p'], 'two-requests' => ['/1', '/2'], 'next-request' => ['/1', '/2'] }[kind] || exit(9)
socket = TCPSocket.new('127.0.0.1', port.to_i)
socket.setsockopt(Socket::IPPROTO_TCP, Socket::TCP_NODELAY, 1)
settings = { settings_enable_push: 0 }
settings[:settings_initial_window_size] = 1000 if kind == 'small-window'
client = HTTP2::Client.new(**settings)
client.on(:frame) { |octets| socket.write(octets); socket.flush }
states = []

send = lambda do |path|
  state = { status: nil, octets: 0, ended: false, error: nil }
  states << state
  stream = client.new_stream
  stream.on(:headers) do |fields|
    status = fields.to_a.to_h[':status']
    state[:status] ||= status if !status || status.to_i >= 200
  end
  stream.on(:data) { |octets| state[:octets] += octets.bytesize }
  stream.on(:close) { |error| state[:ended] = true; state[:error] = error if error.is_a?(Symbol) }
  method = path == '/p' ? 'POST' : 'GET'
  stream.headers({ ':scheme' => 'http', ':method' => method, ':authority' => 'localhost', ':path' => path }, end_stream: method == 'GET')
  stream.data(File.binread(upload)) if method == 'POST'
end
wait = -> { client << socket.readpartial(65_536) until states.all? { |state| state[:ended] } }

begin
  Timeout.timeout(20) do
    paths.each { |path| send.(path); wait.() unless kind == 'two-requests' }
    wait.()
  end
rescue StandardError, Timeout::Error => error
  puts "#{error.class} #{error.message[0, 200]}"
end
good = paths.each_index.map { |at| state = states[at]; state && state[:ended] && !state[:error] && state[:status] }
p states
exit good.each_with_index.sum { |is_good, at| is_good ? 0 : 1 << at }

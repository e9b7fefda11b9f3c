// server PORT: node's http2 over cleartext. It reads each request to its end, and then answers 200.
const server = require('http2').createServer();
server.on('stream', (stream, headers) => {
    stream.on('error', () => {});
    stream.resume();
    stream.on('end', () => {
        if (!stream.destroyed && !stream.closed) {
            stream.respond({ ':status': headers[':method'] === 'CONNECT' ? 501 : 200 });
            stream.end('hi');
        }
    });
});
server.on('sessionError', () => {});
server.listen(+process.argv[2], '127.0.0.1');

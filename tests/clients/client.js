// Node's http2 against a server on 127.0.0.1. Prints a line for each check: `ok NAME`, or what is wrong.
'use strict';
const http2 = require('node:http2');

const session = http2.connect('http://127.0.0.1:' + process.argv[2]);
session.on('error', (error) => console.log('failed session', error.message));

function request(headers, content) {
  return new Promise((resolve) => {
    const stream = session.request(headers);
    let status = 0;
    const parts = [];
    stream.on('response', (answer) => { status = answer[':status']; });
    stream.on('data', (part) => parts.push(part));
    stream.on('error', (error) => resolve({ status, body: error.message }));
    stream.on('end', () => resolve({ status, body: Buffer.concat(parts).toString() }));
    stream.end(content);
  });
}

function report(name, good, found) {
  console.log(good ? 'ok ' + name : 'failed ' + name + ' ' + JSON.stringify(found).slice(0, 200));
}

async function main() {
  let answer = await request({ ':path': '/' });
  report('GET', answer.status === 200 && answer.body === 'hello\n', answer);
  answer = await request({ ':path': '/none' });
  report('404', answer.status === 404, answer);
  answer = await request({ ':path': '/upload', ':method': 'POST' }, Buffer.alloc(1000000, 'u'));
  report('POST of 1,000,000 octets', answer.status === 200 && answer.body === 'took it!', answer);
  const many = [];
  for (let i = 0; i < 100; i += 1) many.push(request({ ':path': '/large' }));
  const answers = await Promise.all(many);
  const good = answers.filter((a) => a.status === 200 && a.body.length === 60000);
  report('100 answers of 60,000 octets at once', good.length === 100, good.length);
  await new Promise((resolve) => session.ping(Buffer.from('12345678'), (error, took, payload) => {
    report('PING', !error && payload.toString() === '12345678', String(error));
    resolve();
  }));
  session.close();
}

main();

// A client of the Language Server Protocol over a child process, which needs nothing but Node.
'use strict';
const { spawn } = require('child_process');

class Client {
  // `told` is called with the method and the parameters of each notice, and `ended` when the server has ended.
  constructor(program, told, ended) {
    this.told = told;
    this.next = 1;
    this.waiting = new Map();
    this.come = Buffer.alloc(0);
    this.child = spawn(program, ['lsp'], { stdio: ['pipe', 'pipe', 'ignore'] });
    this.child.stdout.on('data', (piece) => this.take(piece));
    this.child.stdin.on('error', () => {});
    const end = (why) => {
      for (const { reject } of this.waiting.values()) reject(new Error('the language server has ended'));
      this.waiting.clear();
      ended(why);
    };
    this.child.on('error', (error) => end(error.message));
    this.child.on('exit', (status) => end(`status ${status}`));
  }

  write(message) {
    const body = Buffer.from(JSON.stringify({ jsonrpc: '2.0', ...message }));
    this.child.stdin.write(`Content-Length: ${body.length}\r\n\r\n`);
    this.child.stdin.write(body);
  }

  notify(method, params) {
    this.write({ method, params });
  }

  // Asks, and promises the result.
  ask(method, params) {
    const id = this.next++;
    return new Promise((resolve, reject) => {
      this.waiting.set(id, { resolve, reject });
      this.write({ id, method, params });
    });
  }

  take(piece) {
    this.come = Buffer.concat([this.come, piece]);
    for (;;) {
      const end = this.come.indexOf('\r\n\r\n');
      if (end < 0) return;
      const found = /Content-Length: *([0-9]+)/i.exec(this.come.subarray(0, end).toString());
      const last = end + 4 + (found ? Number(found[1]) : 0);
      if (this.come.length < last) return;
      const body = this.come.subarray(end + 4, last).toString();
      this.come = this.come.subarray(last);
      if (found) this.hear(JSON.parse(body));
    }
  }

  hear(message) {
    if (message.method !== undefined) {
      this.told(message.method, message.params);
      return;
    }
    const one = this.waiting.get(message.id);
    if (one === undefined) return;
    this.waiting.delete(message.id);
    if (message.error) one.reject(new Error(message.error.message));
    else one.resolve(message.result);
  }

  // Ends the session by the protocol.
  async stop() {
    try {
      await this.ask('shutdown');
      this.notify('exit');
    } catch {
      this.child.kill();
    }
  }
}

module.exports = { Client };

// library.js TEXT..: the canonical links of pure identity URIs, by four threads, each with a session of its own.
// Run: node library.js TEXT.. (tdl.node beside it: node.c says how it is built)
"use strict";
const { Worker, isMainThread, parentPort, workerData } = require("node:worker_threads");

const PURE = 2, CANON = 6, THREADS = 4;

if (isMainThread) {
  const texts = process.argv.slice(2), answers = new Array(texts.length);
  const done = [...Array(THREADS).keys()].map((k) => new Promise((resolve, reject) => {
    const worker = new Worker(__filename, { workerData: texts.filter((_, n) => n % THREADS === k) });
    worker.on("message", (some) => some.forEach((answer, n) => { answers[n * THREADS + k] = answer; }));
    worker.on("error", reject);
    worker.on("exit", resolve);
  }));
  Promise.all(done).then(() => answers.forEach((answer) => console.log(answer)));
} else {
  const { Session } = require("./tdl.node");
  const session = new Session(PURE, CANON);
  parentPort.postMessage(workerData.map((text) => session.translate(Buffer.from(text))));
}

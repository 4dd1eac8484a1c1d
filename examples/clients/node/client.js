// Asks `storklocker serve` about the bytes on standard input: node client.js URL
//
// Status 0 is a yes, 1 a no. Whatever else happens ends with 2: without a verdict nothing is loaded.
'use strict';
const fs = require('fs');

const TRIES = 4;
const MILLISECONDS = 35000;

async function accepted(url, data) {
  const headers = {'Content-Type': 'application/octet-stream'};
  const token = process.env.STORKLOCKER_TOKEN;
  if (token !== undefined) headers.Authorization = `Bearer ${token}`;
  let why;
  for (let number = 0; number < TRIES; number++) {
    try {
      const signal = AbortSignal.timeout(MILLISECONDS);
      const answer = await fetch(url, {method: 'POST', headers, body: data, signal});
      const body = await answer.text();
      if (answer.status === 200 && JSON.parse(body).accepted === true) return true;
      if (answer.status === 422 && JSON.parse(body).accepted === false) return false;
      why = new Error(`status ${answer.status}`);
      if (answer.status !== 503) break;
    } catch (error) {
      why = error;
      if (!(error instanceof TypeError)) break; // (which is what a failed connection raises)
    }
    await new Promise((go) => setTimeout(go, 100 * 2 ** number));
  }
  throw why;
}

accepted(process.argv[2], fs.readFileSync(0)).then(
  (isYes) => {
    console.log(isYes ? 'yes' : 'no');
    process.exitCode = isYes ? 0 : 1;
  },
  (error) => {
    console.log(`no verdict: ${error.message}`);
    process.exitCode = 2;
  },
);

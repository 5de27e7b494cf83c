// What the recorder reads off a WGSL text: node wgsl.js WGSL.JS CASES.json writes what it reads of each case, an item in a line.
'use strict';
const fs = require('fs'), vm = require('vm');
const [reader, cases] = process.argv.slice(2).map(name => fs.readFileSync(name, 'utf8'));
const WGSL = vm.runInNewContext(`${reader};WGSL`);
for (const { text, stage, entry } of JSON.parse(cases)) {
  const whole = text.join('\n');
  let found;
  try { found = WGSL.entry(WGSL.read(whole), stage, entry); } catch (error) { found = error.at === undefined ? String(error.stack) : { at: error.at, missed: error.message }; }
  console.log(JSON.stringify(found));
}

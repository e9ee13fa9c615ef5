// Tests the half of share/page.html that reads records: over what the program writes of each example, each line of
// the trace comes back as it was; and the ways of some packets, the states of ports and what is chosen are those that
// the traces have by hand. The last line is 'N passed, M failed'.
//
// usage: node tests/view/page.js [PROGRAM]
'use strict';
const { execFileSync } = require('child_process');
const fs = require('fs');
const path = require('path');
const vm = require('vm');

const TOP = path.resolve(__dirname, '../..');
const PROGRAM = path.resolve(process.argv[2] || path.join(TOP, 'crates/rio_view/out/rio_view'));
const SETS_UP = /^(endpoint|switch|link|buffers|route|default|lock|large|credits) /;
const page = fs.readFileSync(path.join(TOP, 'share/page.html'), 'ascii');
const room = { module: {} };
vm.runInNewContext(page.slice(page.indexOf("'use strict'"), page.indexOf('</script>', page.indexOf("'use strict'"))), room);
const { readTrace, lineText, wordsOf, statesAt, chosenRecords, wayOf, matches, queryOf, longChars, packetKey } = room.module.exports;

let passed = 0;
let failed = 0;

function same(name, mine, wanted) {
  const isSame = JSON.stringify(mine) === JSON.stringify(wanted);
  if (isSame) passed++;
  else {
    failed++;
    console.log(`${name}: ${JSON.stringify(mine)} is not ${JSON.stringify(wanted)}`);
  }
}

function part(html, id) {
  const begin = html.indexOf('>', html.indexOf(`id='${id}'`) > 0 ? html.indexOf(`id='${id}'`) : html.indexOf(`id="${id}"`));
  return html.slice(begin + 1, html.indexOf('</script>', begin));
}

function read(input, ...words) {
  const html = execFileSync(PROGRAM, ['page', ...words], { input, maxBuffer: 1 << 28 }).toString('ascii');
  return readTrace(part(html, 'trace'), JSON.parse(part(html, 'fabric')));
}

function example(name) {
  const script = fs.readFileSync(path.join(TOP, `examples/${name}.script`), 'utf8').split('\n');
  const trace = fs.readFileSync(path.join(TOP, `examples/${name}.trace`), 'utf8');
  const setUp = script.filter((line) => SETS_UP.test(line));
  return { input: [...setUp, '---', trace].join('\n'), lines: trace.trimEnd().split('\n'), first: setUp.length + 2 };
}

function recordAt(trace, number) { return trace.number.indexOf(number); }

// The first word of each line of a packet's way, with its line number.
function way(trace, number) {
  return Array.from(wayOf(trace, recordAt(trace, number)), (i) => `${lineText(trace, i).split(' ')[0]} ${trace.number[i]}`);
}

for (const file of fs.readdirSync(path.join(TOP, 'examples')).filter((it) => it.endsWith('.script'))) {
  const name = file.slice(0, -7);
  const { input, lines, first } = example(name);
  const trace = read(input);
  same(`${name}: lines`, Array.from({ length: trace.count }, (_, i) => lineText(trace, i)), lines);
  same(`${name}: numbers`, Array.from(trace.number.slice(0, trace.count)), lines.map((_, i) => first + i));
}

same('characters', longChars('k7c80ik1c'), 'k7c d80 inv k1c');
same('key of a maintenance packet', packetKey('0008090108050100001423ba'), packetKey('00080901080500000014550e'));
same('key of another packet', packetKey('000f0201cafe0001a9bb0000'), '000f0201cafe0001a9bb0000');

// sent_again: the packet is taken in line 6, sent in 8, refused, sent again in 18, held in 20, freed in 23 and leaves in
// 25.
const again = read(example('sent_again').input);
const wanted = ['take 6', 'sent 8', 'sent 18', 'hold 20', 'free 23', 'leave 25'];
for (const number of [6, 8, 18, 20, 23, 25]) same(`way from line ${number}`, way(again, number), wanted);
const states = (number) => statesAt(again, recordAt(again, number)).map((it) => [it.output, it.input, it.outstanding, it.held]);
same('states at first', states(5), [['OK', 'OK', 0, 0], ['OK', 'OK', 0, 0]]);
same('states behind the packet', states(8), [['OK', 'OK', 1, 0], ['OK', 'OK', 0, 0]]);
same('states behind the refusal', states(13), [['error-stopped', 'OK', 1, 0], ['OK', 'error-stopped', 0, 0]]);
same('states behind the answer', states(17), [['OK', 'OK', 0, 0], ['OK', 'OK', 0, 0]]);
same('states behind the hold', states(20), [['OK', 'OK', 1, 0], ['OK', 'OK', 0, 1]]);
same('states at the end', states(26), [['OK', 'OK', 0, 0], ['OK', 'OK', 0, 0]]);
const numbers = (records) => Array.from(records, (i) => again.number[i]);
same('faults', numbers(chosenRecords(again, null, true, false)), [9, 11, 12, 13, 14, 15, 16, 17]);
same('what did not come as it was sent', numbers(chosenRecords(again, null, false, true)).includes(11), true);
same('what came as it was sent', numbers(chosenRecords(again, null, false, true)).includes(13), false);
same('found by its words', matches(again, recordAt(again, 12), queryOf('bad packet')), true);
same('found by its characters', matches(again, recordAt(again, 12), queryOf('k1c d40')), true);
same('found by its keyword', matches(again, recordAt(again, 25), queryOf('leave B 000f')), true);
same('not found', matches(again, recordAt(again, 12), queryOf('cafe0002')), false);
same('words', wordsOf(again, recordAt(again, 12)), 'B.0 sends packet-not-accepted, bad packet, expects 0');

// read_a_switch: the request goes over two links and is answered by the second switch.
const asked = read(example('read_a_switch').input);
const first = asked.number[0];
same('way over a switch', way(asked, first + 1).map((it) => it.split(' ')[0]),
  ['take', 'sent', 'hold', 'free', 'move', 'sent', 'hold', 'free', 'answer', 'sent', 'hold', 'free', 'move', 'sent', 'hold', 'free', 'leave']);
const link = new Set([0]);
same('one link', Array.from(chosenRecords(asked, link, false, false), (i) => lineText(asked, i))
  .filter((it) => /^(sent|got) /.test(it)).every((it) => /^(sent|got) (A\.0|S\.0)/.test(it)), true);

// A part of a trace has the numbers of its lines.
const some = read(example('sent_again').input, '--lines', '8-12');
same('a part', Array.from(some.number.slice(0, some.count)), [8, 9, 10, 11, 12]);
const port = read(example('sent_again').input, '--port', 'B.0');
same('a port', Array.from({ length: port.count }, (_, i) => lineText(port, i).split(' ').slice(0, 2).join(' ')),
  ['got B.0', 'sent B.0', 'got B.0', 'sent B.0', 'got B.0', 'hold B.0', 'sent B.0', '> collect', 'leave B', 'end']);

console.log(`${passed} passed, ${failed} failed`);
process.exitCode = failed ? 1 : 0;

// most.js MODULE.wasm TOPOLOGY SCRIPT TRACE WORD..: whether the module answers these words over these files with the trace,
// and refuses forty words of an option that is not there. The last line is `N passed, M failed`.
import fs from "node:fs";
import { Engine } from "../engine.js";

const [module, topology, script, trace, ...words] = process.argv.slice(2);
const counts = [0, 0];

function told(passed, name, why) {
  if (!passed) console.log(`FAILED ${name}: ${why}`);
  counts[passed ? 0 : 1] += 1;
}

const engine = await Engine.of(fs.readFileSync(module)), text = bytes => Buffer.from(bytes).toString();
const wanted = fs.readFileSync(trace);
const answer = engine.run(words, fs.readFileSync(topology), fs.readFileSync(script));
told(answer.status === 0 && Buffer.compare(Buffer.from(answer.output), wanted) === 0 && answer.faults.length === 0, "the longest trace",
  `${answer.status} ${answer.output.length} of ${wanted.length} bytes ${text(answer.faults).slice(0, 200)}`);
const refused = engine.run(["sim", ...new Array(39).fill("--frob")], "a b\n", "");
told(refused.status === 2 && refused.output.length === 0 && text(refused.faults).startsWith("error: "), "forty words",
  `${refused.status} ${text(refused.faults).slice(0, 200)}`);
console.log(`${counts[0]} passed, ${counts[1]} failed`);

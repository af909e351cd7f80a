/* Runs scripts over the pages' own files, which it is given: one JSON text a line, a script, is answered by one, its value. */
import { readFileSync } from "node:fs";
import { createInterface } from "node:readline";
import { runInThisContext } from "node:vm";

process.argv.slice(2).forEach((path) => runInThisContext(readFileSync(path, "utf8"), path));
for await (const line of createInterface({ input: process.stdin })) {
  console.log(JSON.stringify(runInThisContext(JSON.parse(line))) ?? "null");
}

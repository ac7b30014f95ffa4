// Reads framed messages from standard input, and writes the canonical words of each to standard output.
import { canonicalizeFlat, CanonicalError, framesFrom } from 'capnp_canonical';

let number = 0;
try {
  for await (const frame of framesFrom(process.stdin)) {
    number++;
    process.stdout.write(canonicalizeFlat(frame));
  }
} catch (error) {
  if (!(error instanceof CanonicalError)) throw error;
  console.error(error.place ? error.message : `message ${number}: ${error.message}`);
  process.exitCode = 2;
}

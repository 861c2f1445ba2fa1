// Not proved; compared with the program's transcripts (tests/why.mjs).
// Rows that must be there, where a transcript is followed.

// What a line says of the state before it isn't so.
export class Unfollowed extends Error {}

// What must be there.
export function there(found) {
  if (found === undefined || found === null) throw new Unfollowed();
  return found;
}

// The row of a number.
export const rowOf = (rows, number) => there(rows instanceof Map ? rows.get(number) : rows[number]);

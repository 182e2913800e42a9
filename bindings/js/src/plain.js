// Versions as most are: by the strict grammar of SemVer, without a build, and with numbers that a number of JavaScript holds.

const NUMBER = '(?:0|[1-9]\\d{0,14})';
const IDENTIFIER = '(?:0|[1-9]\\d*|\\d*[A-Za-z-][A-Za-z\\d-]*)';
const PLAIN = new RegExp(`^${NUMBER}\\.${NUMBER}\\.${NUMBER}(?:-${IDENTIFIER}(?:\\.${IDENTIFIER})*)?$`);

/** Whether the text is such a version. The library takes each of them, and displays it as it stands, so it isn't asked. */
export function isPlain(text) {
  return PLAIN.test(text);
}

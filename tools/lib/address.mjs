// Not proved; compared with the program through tools/lint.
// Which texts are http or https addresses to the program: those of the URL Standard, with this difference from Node's parser,
// that labels of an ASCII host that begin with `xn--` are not decoded. Names past ASCII go by Node's version of Unicode.
//
//   httpAddress(text)   the address as Node has it, but with `xnaa` for `xn--` in a host that Node refuses; null for no such address

// A host in ASCII, as it is once its percent signs are decoded; null for any other one.
function asciiHost(authority) {
  const written = authority.slice(authority.lastIndexOf("@") + 1).replace(/:[0-9]*$/, "");
  try {
    const host = decodeURIComponent(written);
    return /^[!-~]+$/.test(host) && !/[#/:<>?@[\\\]^|%]/.test(host) ? host : null;
  } catch {
    return null;
  }
}

// The same text with labels that no parser decodes, for a host in ASCII with labels that Node would decode.
function undecoded(text) {
  const parts = /^(https?:[/\\]*)([^/\\?#]*)(.*)$/is.exec(text.replace(/^[\u0000-\u0020]+|[\t\n\r]/g, ""));
  const host = parts && asciiHost(parts[2]);
  if (!host) return text;
  const port = /:[0-9]*$/.exec(parts[2])?.[0] ?? "";
  return parts[1] + host.replaceAll(/xn--/gi, "xnaa") + port + parts[3];
}

function parsed(text) {
  try {
    return new URL(text);
  } catch {
    return null;
  }
}

export function httpAddress(text) {
  const url = parsed(text) ?? parsed(undecoded(text));
  return url !== null && /^https?:$/.test(url.protocol) ? url : null;
}

// The program in the address of the page, and what else the address says: `?embed` shows the page without its head, for a frame in
// another page; `&event=12` steps to an event; `&lanes` shows the picture alone; `?large` is the size for a projector.
'use strict';

const WISHES = new URLSearchParams(location.search);
const OF_SOURCE = 's=';     // what the fragment of the address begins with, where it holds a program

async function through(stream, bytes) {
  const answer = new Response(new Blob([bytes]).stream().pipeThrough(stream));
  return new Uint8Array(await answer.arrayBuffer());
}

// Bytes as letters that an address may have, and back.
function lettersOf(bytes) {
  const text = Array.from(bytes, (byte) => String.fromCharCode(byte)).join('');
  return btoa(text).replaceAll('+', '-').replaceAll('/', '_').replaceAll('=', '');
}

function bytesOf(letters) {
  return Uint8Array.from(atob(letters.replaceAll('-', '+').replaceAll('_', '/')), (sign) => sign.charCodeAt(0));
}

async function packed(text) {
  return lettersOf(await through(new CompressionStream('deflate-raw'), new TextEncoder().encode(text)));
}

async function unpacked(letters) {
  return new TextDecoder().decode(await through(new DecompressionStream('deflate-raw'), bytesOf(letters)));
}

// The fragment of a source and an input.
async function fragmentOf(source, given) {
  return `${OF_SOURCE}${await packed(source)}${given ? `&i=${await packed(given)}` : ''}`;
}

// The source and the input of a fragment. One that is cut or changed is an error.
async function programOf(fragment) {
  const parts = new URLSearchParams(fragment);
  const given = parts.get('i');
  return {source: await unpacked(parts.get('s')), input: given ? await unpacked(given) : ''};
}

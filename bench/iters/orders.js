// The permutations of 8 numbers by a recursive generator, and the sum of their digits with their places modulo 1,000,003.
'use strict';

function swap(a, i, j) {
  const x = a[i];
  a[i] = a[j];
  a[j] = x;
}

function* orders(a, from) {
  if (from === a.length) {
    yield;
    return;
  }
  for (let i = from; i < a.length; i++) {
    swap(a, from, i);
    yield* orders(a, from + 1);
    swap(a, from, i);
  }
}

function main() {
  const a = [1, 2, 3, 4, 5, 6, 7, 8];
  let sum = 0;
  for (const _ of orders(a, 0)) sum = (sum * 3 + a[0] * 10 + a[7]) % 1000003;
  console.log(`${sum}`);
}

main();

// The squares of the numbers up to 400,000 that 3 or 5 divides, from one generator to the next, and their sum modulo 1,000,003.
'use strict';

function* numbers(n) {
  for (let i = 1; i <= n; i++) yield i;
}

function* multiples(n) {
  for (const x of numbers(n)) {
    if (x % 3 === 0 || x % 5 === 0) yield x;
  }
}

function* squares(n) {
  for (const multiple of multiples(n)) {
    const x = multiple % 1000;
    yield x * x;
  }
}

function main() {
  let sum = 0;
  for (const square of squares(400000)) sum = (sum + square) % 1000003;
  console.log(`${sum}`);
}

main();

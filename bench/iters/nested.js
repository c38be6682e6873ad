// The sum of products over two nested loops of 1,000 and 1,500 rounds, modulo 1,000,003.
'use strict';

function* upto(from, to) {
  for (let i = from; i <= to; i++) yield i;
}

function main() {
  let sum = 0;
  for (const i of upto(1, 1000)) {
    for (const j of upto(1, 1500)) sum = (sum + i * j) % 1000003;
  }
  console.log(`${sum}`);
}

main();

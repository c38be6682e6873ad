// How many primes there are up to 2,000,000, and their sum modulo 1,000,003.
'use strict';

function main() {
  const n = 2000000;
  const composite = new Array(n + 1).fill(false);
  for (let i = 2; i * i <= n; i++) {
    if (!composite[i]) {
      for (let j = i * i; j <= n; j += i) composite[j] = true;
    }
  }
  let count = 0;
  let sum = 0;
  for (let i = 2; i <= n; i++) {
    if (!composite[i]) {
      count++;
      sum = (sum + i) % 1000003;
    }
  }
  console.log(`${count} ${sum}`);
}

main();

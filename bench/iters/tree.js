// The values of a balanced tree of 8,191 nodes in order, ten times, and the sum of each with its place modulo 1,000,003.
'use strict';

class Node {
  constructor(first, last) {
    const middle = Math.floor((first + last) / 2);
    this.value = middle;
    this.left = first < middle ? new Node(first, middle - 1) : null;
    this.right = middle < last ? new Node(middle + 1, last) : null;
  }

  * walk() {
    if (this.left) yield* this.left.walk();
    yield this.value;
    if (this.right) yield* this.right.walk();
  }
}

function main() {
  const tree = new Node(1, 8191);
  let sum = 0;
  for (let round = 0; round < 10; round++) {
    for (const value of tree.walk()) sum = (sum * 3 + value) % 1000003;
  }
  console.log(`${sum}`);
}

main();

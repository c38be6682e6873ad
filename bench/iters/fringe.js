// Whether two trees with 4,096 equal leaves have the same fringe, ten times: one is balanced, the other leans at each node.
'use strict';

class Node {
  constructor(first, count, part) {
    this.leaf = first;
    this.left = null;
    this.right = null;
    if (count > 1) {
      const taken = Math.max(Math.floor(count / part), 1);
      this.left = new Node(first, taken, part);
      this.right = new Node(first + taken, count - taken, part);
    }
  }

  * leaves() {
    if (this.left === null) {
      yield this.leaf;
    } else {
      yield* this.left.leaves();
      yield* this.right.leaves();
    }
  }
}

function sameFringe(a, b, count) {
  const left = a.leaves();
  const right = b.leaves();
  for (let i = 0; i < count; i++) {
    if (left.next().value !== right.next().value) return false;
  }
  return true;
}

function main() {
  const a = new Node(0, 4096, 2);
  const b = new Node(0, 4096, 5);
  let same = 0;
  for (let round = 0; round < 10; round++) {
    if (sameFringe(a, b, 4096)) same += 1;
  }
  console.log(`${same}`);
}

main();

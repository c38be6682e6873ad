// The product of two matrices of 120 rows and columns, and the sum of its elements modulo 1,000,003.
'use strict';

class Matrix {
  constructor(size) {
    this.size = size;
    this.cells = new Array(size * size).fill(0);
  }

  get(i, j) { return this.cells[i * this.size + j]; }

  set(i, j, value) { this.cells[i * this.size + j] = value; }

  times(other) {
    const result = new Matrix(this.size);
    for (let i = 0; i < this.size; i++) {
      for (let j = 0; j < this.size; j++) {
        let sum = 0;
        for (let k = 0; k < this.size; k++) sum += this.get(i, k) * other.get(k, j);
        result.set(i, j, sum);
      }
    }
    return result;
  }
}

function main() {
  const n = 120;
  const a = new Matrix(n);
  const b = new Matrix(n);
  for (let i = 0; i < n * n; i++) {
    a.set(Math.floor(i / n), i % n, i % 17);
    b.set(Math.floor(i / n), i % n, i % 13 - 6);
  }
  const c = a.times(b);
  let sum = 0;
  for (let i = 0; i < n * n; i++) sum = (sum * 3 + c.get(Math.floor(i / n), i % n)) % 1000003;
  console.log(`${sum}`);
}

main();

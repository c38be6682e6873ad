// The areas and sides of shapes of four classes, 2,000 times, 4,000,000 calls behind an abstract class.
'use strict';

class Square {
  constructor(a) { this.a = a; }

  area() { return this.a * this.a; }

  sides() { return 4; }
}

class Rectangle {
  constructor(a, b) {
    this.a = a;
    this.b = b;
  }

  area() { return this.a * this.b; }

  sides() { return 4; }
}

class Triangle {
  constructor(base, height) {
    this.base = base;
    this.height = height;
  }

  area() { return Math.floor(this.base * this.height / 2); }

  sides() { return 3; }
}

class Point {
  area() { return 0; }

  sides() { return 0; }
}

function shape(i) {
  switch (i % 4) {
    case 0: return new Square(i % 31);
    case 1: return new Rectangle(i % 29, i % 7);
    case 2: return new Triangle(i % 23, i % 11);
    default: return new Point();
  }
}

function main() {
  const shapes = [];
  for (let i = 0; i < 1000; i++) shapes.push(shape(i));
  let sum = 0;
  for (let round = 0; round < 2000; round++) {
    for (const s of shapes) sum = (sum + s.area() * s.sides()) % 1000003;
  }
  console.log(`${sum}`);
}

main();

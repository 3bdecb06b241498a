function two(a, b) { println(a + " " + b); return 3; }
function none(a) { println(a); return 8; }
function main() {
  two(1, 2);
  two(5);
  two(6, 7, 8);
  two();
  println(pair(10, 20));
  println(pair(30));
  println(pair());
  println(empty());
  println(drop(4));
  debugger;
}

function left() {
  println(1);
}
function right() {
  println(2); top(3);
}
function never() { return 4; }

// A walk by steps: into a call, over one, and out of one.
function square(x) {
  y = x * x;
  return y;
}
function sum(a, b) {
  return square(a) + square(b);
}
function main() {
  debugger;
  println(sum(3, 4));
  println("done");
}

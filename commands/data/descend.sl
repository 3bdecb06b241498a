function f(n) {
  if (n < 1) { return 0; }
  return f(n - 1) + g(n);
}
function g(n) { return 1 / (n - 1); }
function main() {
  println(f(0));
  f(2);
}

// A function that calls itself.
function factorial(n) {
  if (n < 2) { return 1; }
  return n * factorial(n - 1);
}
function main() {
  println("5! = " + factorial(5));
}

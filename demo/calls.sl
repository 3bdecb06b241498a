// Functions call one another, and a function is a value too.
function twice(f, x) {
  return f(f(x));
}
function add_ten(n) {
  return n + 10;
}
function main() {
  println(twice(add_ten, 1));
}

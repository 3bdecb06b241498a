function f() { return "own f, not the last"; }
function println_is() { return println; }
function main() {
  println(f());
  println(g());
  println(h());
  println(println_is());
  println(f);
  println(h);
  println(f == f2);
  println(g == g2);
  return g;
}
function f() { return "own f"; }

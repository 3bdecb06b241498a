function f() {
  return 1;
}
function main() {
  f();
  f();
}

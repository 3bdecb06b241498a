function show(n) {
  if (n == 1) { return n; }
  println("n " + n);
}
function main() {
  i = 0;
  while (i < 3) {
    i = i + 1;
    if (i == 2) { continue; }
    show(i);
    call_store(i);
  }
  debugger;
  return show;
}

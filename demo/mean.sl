// The mean of some numbers. One of the calls has none.
function mean(sum, count) {
  result = sum / count;
  return result;
}
function main() {
  println(mean(6, 3));
  println(mean(6, 0));
  println(mean(8, 2));
}

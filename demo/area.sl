// A function that is called twice.
function area(width, height) {
  size = width * height;
  return size;
}
function main() {
  println(area(2, 3));
  println(area(4, 5));
}

// `+` joins two values where one of them is a text.
function greeting(name) {
  return "hello, " + name;
}
function main() {
  line = greeting("world") + " " + 1 + 1;
  println(line);
  println(1 + 1 + line == "2" + line);
}

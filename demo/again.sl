// The first try to load fails.
function load(name) {
  tries = attempt();
  if (tries < 2) {
    println("cannot load " + name);
    return "nothing";
  }
  return name + " at try " + tries;
}
function main() {
  println(load("map"));
}

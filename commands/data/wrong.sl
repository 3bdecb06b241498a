function down(n, how) {
  if (n < 1999) { down(n + 1, how); }
  if (n == 1999) {
    if (how == 1) { p("a", 2); }
    if (how == 2) { p("a"); }
    if (how == 3) { p(1); }
  }
}
function arity() { down(1, 1); }
function kind() { down(1, 2); }
function depth() { down(1, 3); }
function parts() { p(println(1), println(2), println(p)); }
function truth() { p(1 == 1); }
function item() { p(p); }
function value() { q = p; println(q(4)); println(q()); println(q(5)); none(); }

function f() { return "other f"; }
function g() { return "other g, not the last"; }
function println(x) { return "other println"; }
function twice(x) { return println(x) + f(); }
function g() { return "other g"; }

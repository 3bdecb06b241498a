function a(n) { return 1 + b(n); }
function main() { return a(1); }

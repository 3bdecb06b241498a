function a() { return 1; }
function b() { debugger; return 2; }

function a() { return b(); }
